"""The program of a file."""
import os
import re

from .bind import Bind
from .dnsmasq import Dnsmasq
from .files import Unreadable, octets_of, shown
from .resolv import Resolv
from .resolved import Resolved
from .unbound import Unbound

READERS = {"dnsmasq": Dnsmasq, "unbound": Unbound, "bind": Bind, "resolv": Resolv,
           "resolved": Resolved}

# Of refused programs: by the name of the file or folder, or by a line.
FOREIGN = (
    ("NetworkManager", r"NetworkManager(\.conf)?|.*\.nmconnection", r"\[(main|connection|ipv4)\]"),
    ("kresd", r"kresd\.conf|knot-resolver",
     r"net\.listen\(.*|policy\.add\(.*|modules(\.load\(.*| = \{.*)"),
    ("PowerDNS", r"(pdns|recursor|dnsdist)(\.conf|\.yml|\.d)",
     r"(forward-zones(-recurse|-file)?|allow-from|launch)\s*=.*|newServer\(.*|addLocal\(.*"))

# By the name of the file or folder, and by the first line with a pattern.
BY_NAME = {
    "resolved": r"resolved\.conf.*", "resolv": r"resolv\.conf.*", "dnsmasq": r"dnsmasq\.(conf|d).*",
    "unbound": r"unbound\.conf.*", "bind": r"named\.conf.*|bind"}
BY_TEXT = {
    "resolved": r"\[Resolve\]", "resolv": r"nameserver\s.*",
    "unbound": r"(server|forward-zone|stub-zone|remote-control|include(-toplevel)?):(\s.*)?",
    "bind": r"(options|zone|acl|view|logging|include|trust-anchors|managed-keys)\b[^=:]*[{;].*",
    "dnsmasq": r"[a-z][a-z0-9-]*\s*=.*|no-resolv|no-hosts|domain-needed|bogus-priv|bind-interfaces"}


def kind_of(path):
    """The program of a file. Some programs are refused by name."""
    *_, folder_above, folder, name = ["", "", *os.path.abspath(path).split(os.sep)]
    for text in (name, folder):
        for kind, pattern in BY_NAME.items():
            if re.fullmatch(pattern, text):
                return kind
    text = octets_of(path).decode("utf-8-sig", "backslashreplace")
    lines = [line.strip() for line in text.splitlines()]
    for program, of_names, of_lines in FOREIGN:
        if any(re.fullmatch(of_names, text) for text in (name, folder, folder_above)) or any(
                re.fullmatch(of_lines, line) for line in lines):
            what = f"is of {program}, which is not read: write a route for each of its servers"
            raise Unreadable(f"{shown(path)}: {what}")
    for line in lines:
        for kind, pattern in BY_TEXT.items():
            if re.fullmatch(pattern, line):
                return kind
    raise Unreadable(f"{shown(path)}: is of no program that is known here: say which by --of")

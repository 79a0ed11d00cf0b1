"""Reads resolved.conf, with drop-ins: see resolved.conf(5)."""
import glob
import os

from .files import Line, Refused
from .names import ENCRYPTED, cut, ipv4_of, peer_of, port_of, seconds_of
from .rows import Row
from .tables import Options

RESOLVED = Options("resolved", "systemd-resolved")
# The last decides.
FOLDERS = ("/usr/lib/systemd", "/usr/local/lib/systemd", "/run/systemd", "/etc/systemd")
BOOLEANS = {**dict.fromkeys(("1", "yes", "y", "true", "t", "on"), "yes"),
            **dict.fromkeys(("0", "no", "n", "false", "f", "off"), "no")}
LISTS = {"DNS", "FallbackDNS", "Domains", "DNSStubListenerExtra"}


class Resolved:
    """Gathers the settings of all files; `end` carries them."""

    def __init__(self, files, found):
        self.files, self.found = files, found
        self.lists = {key: [] for key in LISTS}  # words with their lines
        self.first, self.single = None, {}  # of each further setting the last value and line

    def read(self, path):
        """Takes a file, and the drop-ins in order of their names."""
        self.first = self.first or Line(path, 0)
        self.one(path)
        if os.path.basename(path) == "resolved.conf":
            for drop_in in self.drop_ins(path):
                self.one(drop_in)

    def drop_ins(self, path):
        """The drop-ins of a file: in the folder next to the file, or the system's folders."""
        beside = os.path.abspath(path)[len(self.files.root):]
        folders = FOLDERS if os.path.dirname(beside) in FOLDERS else (os.path.dirname(path), )
        root = self.files.root if folders is FOLDERS else ""
        found = {}
        for folder in folders:
            for each in glob.glob(os.path.join(glob.escape(root + folder),
                                               "resolved.conf.d/*.conf")):
                found[os.path.basename(each)] = each
        return [found[name] for name in sorted(found)]

    def one(self, path):
        section = None
        with self.files.lines(path) as lines:
            for line in joined(lines):
                text = line.text.strip()
                if not text or text[0] in "#;":
                    continue
                if text[0] == "[":
                    section = text
                    continue
                with self.found.refusing(line):
                    self.take(section, text, line)

    def take(self, section, text, line):
        key, equals, value = (part.strip() for part in text.partition("="))
        if section != "[Resolve]" or not equals:
            raise Refused("it is no setting of the section [Resolve]")
        if key in LISTS:
            self.add(key, value, line)
        else:
            before = self.single.get(key)
            if before:
                self.found.pass_over(before[1], "a later line decides")
            self.single[key] = BOOLEANS.get(value.lower(), value.lower()), line

    def add(self, key, value, line):
        """Adds words to a list; a line without words clears the list."""
        if not value:
            for before in dict.fromkeys(before for _, before in self.lists[key]):
                self.found.pass_over(before, "a later line clears it")
            self.found.pass_over(line, "it clears the list")
            self.lists[key] = []
        self.lists[key] += [(word, line) for word in value.split()]

    def end(self, _):
        """Carries the settings of all files together."""
        servers = self.lists["DNS"] or self.lists["FallbackDNS"]
        if self.lists["DNS"]:
            for line in dict.fromkeys(line for _, line in self.lists["FallbackDNS"]):
                self.found.pass_over(line, "with `DNS=` it has no effect")
        is_encrypted = self.single.get("DNSOverTLS", ("no", ))[0] == "yes"
        if not servers:
            what = "without `DNS=` the servers are those of /etc/resolv.conf and of each link"
            self.found.leave(self.first, f"{what}: write them into a route", Row.PROVIDED)
        if "ReadEtcHosts" not in self.single:
            what = "systemd-resolved answers from /etc/hosts, too"
            to = "a name server that has its names"
            self.found.leave(self.first, f"{what}: write a route to {to}", Row.RECORDS)
        suffixes = self.suffixes()
        for word, line in servers:
            self.server(word, line, suffixes, is_encrypted)
            if not suffixes:
                self.found.leave(line, f"{word} has no suffix for which it can be asked")
        self.listen()
        for key, (value, line) in self.single.items():
            with self.found.refusing(line):
                self.setting(key, value, line)

    def server(self, word, line, suffixes, is_encrypted):
        address, port, link, name = parts_of(word)
        if link:
            self.found.leave(
                line, f"queries do not leave by the link {link}: let the routing table decide")

        def peer():
            if is_encrypted:
                raise Refused(f"{word}: {ENCRYPTED}")
            met = peer_of(address, port)
            if name:
                self.found.pass_over(line,
                                     f"{name} is a name for TLS, and queries are sent in plain")
            return met

        for suffix in suffixes:
            self.found.serve(suffix, peer, line)

    def suffixes(self):
        """The suffixes of the servers: the routing domains, or else all names."""
        suffixes = []
        for word, line in self.lists["Domains"]:
            if not word.startswith("~"):
                self.found.pass_over(line, f"{word} is a search domain, which clients have")
                continue
            try:
                self.found.route(word[1:]).named.append(line)
                suffixes.append(word[1:])
            except Refused as refused:
                self.found.leave(line, f"{word[1:]}: {refused.what}")
        routed = [(word, line) for word, line in self.lists["Domains"] if word.startswith("~")]
        if routed and "." not in suffixes:
            what = ("all other names are asked of the servers of each link: write these into a"
                    " route `.`")
            self.found.leave(routed[0][1], what, Row.PROVIDED)
        return suffixes if routed else ["."]

    def listen(self):
        """The addresses besides the stub's."""
        for word, line in self.lists["DNSStubListenerExtra"]:
            transport, rest = word[:3], word[4:]
            if word[3:4] != ":" or transport not in ("udp", "tcp"):
                transport, rest = "", word
            address, port, _, _ = parts_of(rest)
            with self.found.refusing(line):
                remark = "here by UDP and TCP" if transport else ""
                self.found.listen(ipv4_of(address), port_of(port), line, remark)

    def setting(self, key, value, line):
        if key == "StaleRetentionSec":
            self.found.limit("stale_s", str(seconds_of(value)), line, "once all tries failed")
        elif (key, value) == ("DNSOverTLS", "opportunistic"):
            raise Refused("queries are sent in plain, also to servers that take encrypted ones")
        else:
            RESOLVED.settle(self.found, key, value, line)


def joined(lines):
    """The lines, each joined with the next after a backslash; the number is the first's."""
    held = None
    for line in lines:
        if held and line.text.strip()[:1] in ("#", ";"):
            continue
        text = held.text + line.text if held else line.text
        held = Line(line.path, held.number if held else line.number, text.removesuffix("\\"))
        if not text.endswith("\\"):
            yield held
            held = None
    if held:
        yield held


def parts_of(word):
    """Address, port (53 if none is given), link and name of `ADDRESS:PORT%LINK#NAME`."""
    rest, _, name = word.partition("#")
    rest, _, link = rest.partition("%")
    if rest.startswith("["):
        address, _, port = rest[1:].partition("]")
        port = port.removeprefix(":") or "53"
    elif rest.count(":") > 1:
        address, port = rest, "53"
    else:
        address, port = cut(rest, ":")
    return address, port, link, name

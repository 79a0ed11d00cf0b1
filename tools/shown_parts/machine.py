"""A machine for a page's reader, in namespaces of its own: this machine's files below a layer that
takes what is written, the package of the program, an office's addresses, and name servers.

systemd does not run there. `systemctl` starts and stops the program that a unit names, and `sudo`
runs its words."""
import os
import pathlib
import struct
import subprocess

from repository.packing import (
    A, CNAME, OF_QUESTION, SOA, TXT, address, name, name_end, record, reply)
from running.nameserver import NameServer

from .pages import TOP

OUTSIDE, COMPANY = ("198.51.100.53", "203.0.113.53"), ("10.0.0.10", "10.0.0.11")
ADDRESSES = ("10.0.0.53", "10.0.0.54", *OUTSIDE, *COMPANY)
SUDO = '#!/bin/sh\nexec "$@"\n'
SUDOEDIT = '#!/bin/sh\ntest -f "$1"\n'


def run(*words):
    subprocess.run([str(word) for word in words], check=True, capture_output=True)


def layered(lower, folder, name, root):
    """Mounts this machine's folder below a layer that takes what is written."""
    for part in ("upper", "work"):
        (folder / f"{name}.{part}").mkdir()
    options = f"lowerdir={lower},upperdir={folder}/{name}.upper,workdir={folder}/{name}.work"
    run("mount", "-t", "overlay", "overlay", "-o", options, root)


def mounted(folder):
    """The root of the machine. The repository, maybe a mount, or in /tmp, is a layer of its own."""
    run("mount", "-t", "tmpfs", "none", folder)
    root = folder / "root"
    root.mkdir()
    layered("/", folder, "system", root)
    for kind, where in (("proc", "proc"), ("tmpfs", "run"), ("tmpfs", "tmp")):
        run("mount", "-t", kind, "none", root / where)
    run("mount", "--rbind", "/dev", root / "dev")
    below = root / TOP.relative_to("/")
    below.mkdir(parents=True, exist_ok=True)
    layered(TOP, folder, "repository", below)
    return root


def enter(folder, package):
    """Makes the machine, installs the package, and makes its root this process's."""
    root = mounted(pathlib.Path(folder))
    (root / "tmp" / package.name).write_bytes(package.read_bytes())
    run("dpkg-deb", "-x", package, root)
    systemctl = (pathlib.Path(__file__).parent / "systemctl").read_text(encoding="utf-8")
    for command, text in (("sudo", SUDO), ("systemctl", systemctl), ("sudoedit", SUDOEDIT)):
        file = root / "usr" / "local" / "bin" / command
        file.write_text(text)
        file.chmod(0o755)
    (root / "etc" / "forwarder").mkdir(exist_ok=True)
    run("ip", "link", "set", "lo", "up")
    for address in ADDRESSES:
        run("ip", "address", "add", f"{address}/32", "dev", "lo")
    os.chroot(root)
    os.chdir(TOP)
    path = "/usr/local/bin:/usr/bin:/bin:/usr/sbin:/sbin"
    os.environ.update(PATH=path, HOME="/tmp", LC_ALL="C.UTF-8", TZ="UTC")


LARGEST = 512  # octets by UDP


def beginning(zone):
    """The data of a zone's SOA record."""
    names = name(f"ns1.{zone}") + name(f"hostmaster.{zone}")
    return names + struct.pack(">5I", 1, 3600, 600, 86400, 300)


RECORDS = {
    ("www.example.com", A): address(300, 192, 0, 2, 80),
    ("intranet.corp.example", A): address(300, 10, 0, 0, 80),
    ("www.corp.example", A): record(OF_QUESTION, CNAME, 3600, name("www.example.com")),
    ("", SOA): record(OF_QUESTION, SOA, 300, beginning("example.com")),
    ("text.corp.example", TXT): record(OF_QUESTION, TXT, 300, (b"\xfa" + b"x" * 250) * 4),
}
HELD = {name(owner) + struct.pack(">H", kind): found for (owner, kind), found in RECORDS.items()}


def denial(query, zone):
    """The reply for a missing name, with the SOA record of its zone."""
    return reply(query, 0x8183, authority=[record(name(zone), SOA, 300, beginning(zone))])


def reply_to(query):
    """The reply to a query: a record of the table, or a denial."""
    asked = query[12:name_end(query, 12) + 2].lower()
    if asked in HELD:
        return reply(query, 0x8180, [HELD[asked]])
    return denial(query, "corp.example" if name("corp.example") in asked else "example.com")


def by_udp(query):
    whole = reply_to(query)
    return whole if len(whole) <= LARGEST else reply(query, 0x8380)


def server(at, silent=False):
    """A name server at port 53 of an address; a silent one takes queries, and sends nothing."""
    if silent:
        return NameServer(lambda query: None, lambda stream, query: None, 53, at)
    return NameServer(by_udp, NameServer.framing(reply_to), 53, at)


class Office:
    """The name servers of the guide. A scene of a page stops or starts some."""

    def __init__(self):
        self.open = {}
        self.start(OUTSIDE + COMPANY)

    def start(self, addresses, silent=False):
        for address in addresses:
            if address not in self.open:
                self.open[address] = server(address, silent)

    def stop(self, addresses):
        for address in addresses:
            self.open.pop(address).stop()

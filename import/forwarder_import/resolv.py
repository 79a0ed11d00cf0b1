"""Reads resolv.conf: see resolv.conf(5)."""
import collections

from .files import Refused
from .names import peer_of
from .rows import Row

MOST_OF_CLIENTS = 3
OF_CLIENTS = {"search", "domain", "options", "sortlist"}
STUBS = {"127.0.0.53", "127.0.0.54"}  # of systemd-resolved: it may ask this forwarder in turn


class Resolv:
    """Reads the servers of the C library's resolver."""

    def __init__(self, files, found):
        self.files, self.found = files, found
        self.paths, self.servers = [], []  # servers are addresses with their lines

    def read(self, path):
        self.paths.append(path)
        with self.files.lines(path) as lines:
            for line in lines:
                with self.found.refusing(line):
                    self.take(line)

    def take(self, line):
        key, *words = line.text.split() or [""]
        if not key or key[0] in "#;":
            return
        if key == "nameserver" and not words:
            raise Refused("it has no value")
        if key == "nameserver":
            self.servers.append((words[0], line))
        elif key in OF_CLIENTS:
            self.found.pass_over(line, "each client has its own: it stays there")
        else:
            raise Refused("it is no line of resolv.conf")

    def end(self, readers):
        """Carries the servers, unless dnsmasq does not read their file."""
        dnsmasq = readers.get("dnsmasq")
        why = {path: dnsmasq.why_not_read(path) if dnsmasq else "" for path in self.paths}
        counts = collections.Counter()
        for address, line in self.servers:
            counts[line.path] += 1
            if why[line.path]:
                self.found.leave(line, why[line.path])
            elif counts[line.path] > MOST_OF_CLIENTS and not dnsmasq:
                what = f"the C library asks the first {MOST_OF_CLIENTS} servers alone"
                self.found.leave(line, f"{what}: add {address} to `servers` if you want it asked")
            else:
                self.server(address, line)

    def server(self, address, line):
        remark = ("a program on this machine: name its own servers"
                  if address.startswith("127.") else "")
        self.found.serve(".", lambda: usable(address), line, remark)


def usable(address):
    """The peer of an address, unless systemd-resolved on this machine listens there."""
    if address in STUBS:
        what = (f"{address} is the stub of systemd-resolved: give /run/systemd/resolve/resolv.conf"
                " instead of this file")
        raise Refused(what, Row.PROVIDED)
    return peer_of(address)

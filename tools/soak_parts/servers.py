"""The name servers of the office: Knot DNS and BIND, with changing zones, and NSD."""
import contextlib
import math
import signal
import socket
from concurrent import futures

import dns.exception
import dns.query
import dns.update

from others import servers
from repository.packing import SOA, code, query
from soak_parts import office
from soak_parts.failing import KILLED

PORT = 53
MOST_TRIES = 10  # of an update

KNOT = f"""server:
  listen: {{address}}@53
  rundir: {{folder}}
  udp-workers: 1
  tcp-workers: 1
  background-workers: 1
log:
  - target: stderr
    any: error
database:
  storage: {{folder}}/db
acl:
  - id: update
    address: {office.HARNESS}
    action: update
template:
  - id: default
    storage: {{folder}}
    acl: update
    zonefile-sync: -1
    zonefile-load: whole
    journal-content: none
    semantic-checks: off
zone:
"""


class Knot(servers.Server):
    command, head = "knotd", KNOT

    def words(self):
        (self.folder / "db").mkdir(exist_ok=True)
        return ["-c", self.configured()]

    def zone(self, name):
        return f"  - domain: {name}\n    file: {name}\n"


class Named(servers.Named):
    def words(self):
        return ["-f", "-n", "1", "-c", self.configured()]

    def write_zones(self):
        super().write_zones()
        for name in self.zones:
            (self.folder / f"{name}.jnl").unlink(missing_ok=True)

    def zone(self, name):
        more = f"check-names ignore; allow-update {{ {office.HARNESS}; }};"
        return f'zone "{name}" {{ type primary; file "{name}"; {more} }};\n'


# Knot DNS now and then takes a second of the system for an update, so the inside has BIND alone.
KINDS = {office.OUTSIDE[0]: Knot, office.OUTSIDE[1]: Named, **dict.fromkeys(office.INSIDE, Named),
         office.LARGE[0]: servers.Nsd}


def missing():
    """The programs that are not installed."""
    return [kind.command for kind in dict.fromkeys(KINDS.values()) if not kind.is_installed()]


class NotTaken(Exception):
    """An update that a server did not take."""


def send(address, zone, sets):
    """Has a server take changes of a zone: new sets by name and type, None for nothing.

    All old sets go first, since no data may be next to an alias (RFC 2136 3.4.2.2)."""
    update = dns.update.UpdateMessage(zone)
    for owner, kind in sets:
        update.delete(owner + ".", kind)
    for (owner, kind), held in sets.items():
        for data in held.data if held else ():
            update.add(owner + ".", held.ttl, kind, data)
    reply = dns.query.tcp(update, address, 5, source=office.HARNESS)
    if reply.rcode():
        raise NotTaken(f"{address}: result code {reply.rcode()} for an update of {zone}")


class Served:
    """A server in the office, with the changes still to take, and the failures so far."""

    def __init__(self, folder, address, now, text_of):
        """`now` gives the time of the office, `text_of` the master file of a zone at that time."""
        self.address, self.now, self.text_of = address, now, text_of
        self.names = office.SERVED[address]
        folder.mkdir()
        self.server = KINDS[address](folder, PORT, address, self.texts())
        self.waiting, self.loaded, self.failed = [], [], []
        self.how, self.probe = KILLED, None
        self.sender, self.sent, self.batch = futures.ThreadPoolExecutor(1), None, []
        self.tries = 0

    def texts(self):
        return {zone: self.text_of(zone) for zone in self.names}

    def start(self):
        """Starts the server, and waits for its first answer."""
        self.begin()
        self.server.process.wait_until(self.has_returned)

    def begin(self):
        """Starts the process with the zones of now."""
        self.server.zones = self.texts()
        self.server.write_zones()
        self.loaded, self.waiting = self.loaded + self.waiting, []
        self.server.begin()
        self.probe = socket.socket(type=socket.SOCK_DGRAM)
        self.probe.bind((office.HARNESS, 0))
        self.probe.setblocking(False)

    def has_returned(self):
        """Whether a server serves after its start."""
        self.server.process.expect_running()
        with contextlib.suppress(OSError):
            if code(self.probe.recv(65535)) == 0:
                self.probe.close()
                self.probe = None
                self.is_back()
                return True
        with contextlib.suppress(OSError):
            self.probe.sendto(query(self.names[0], SOA), (self.address, PORT))
        return False

    def fail(self, how):
        """Ends or stops the server. No update may be under way."""
        self.how = how
        self.failed.append([self.now(), math.inf])
        if how == KILLED:
            self.server.process.kill()
        else:
            self.server.process.signal(signal.SIGSTOP)

    def go_on(self):
        """Lets a stopped server go on; changes of meanwhile follow."""
        self.server.process.signal(signal.SIGCONT)
        self.is_back()

    def is_back(self):
        self.how = None
        if self.failed:
            self.failed[-1][1] = self.now()

    def take(self):
        """Sends waiting changes, if the server serves; returns those taken since."""
        taken = self.acknowledged() if self.sent and self.sent.done() else []
        if not self.how and not self.sent:
            taken, self.loaded = taken + self.loaded, []
            self.batch, self.waiting = self.waiting, []
            changes = [each.change for each in self.batch]
            self.sent = self.sender.submit(self.send, changes) if changes else None
        return taken

    def send(self, changes):
        """Sends changes; of several of a set only the last."""
        for zone in dict.fromkeys(change.zone for change in changes):
            send(self.address, zone, {(each.owner, each.kind): each.held
                                      for each in changes if each.zone == zone})

    def acknowledged(self):
        """The sent changes if all are taken; otherwise they are sent again."""
        fault, batch = self.sent.exception(), self.batch
        self.sent, self.batch = None, []
        if fault is None:
            self.tries = 0
            return batch
        self.tries += 1
        may_have_failed = isinstance(fault, (OSError, EOFError, dns.exception.Timeout))
        if self.tries == MOST_TRIES or not may_have_failed:
            raise fault
        self.waiting = batch + self.waiting
        return []

    def stop(self):
        """Ends the server in any state."""
        self.sender.shutdown(cancel_futures=True)
        if self.server.process:
            self.server.process.signal(signal.SIGCONT)
            self.server.stop()

"""A capture of 300,000 questions, made from a model of the service, and how it is explained."""
import heapq
import itertools
import pathlib
import random
import socket
import struct
import sys

import judging
from world import configuration

sys.path.append(str(pathlib.Path(__file__).resolve().parents[2] / "tools"))
from repository import packing  # noqa: E402 (the path is known only now)

QUESTIONS, GAP, TRY = 300000, 1000, 300000  # times in microseconds
MOST_SECONDS, MOST_OCTETS = 30, 200 * 10**6
BEGIN = 1796000000 * 1000000
SERVERS = ["192.0.2.1", "192.0.2.2", "192.0.2.1"]
SERVICE = ("10.0.0.53", 53)
ASKED, ANSWERED, FAILED = 0x0100, 0x8180, 0x8182  # flags


def datagram(source, target, octets):
    """An Ethernet frame with a UDP datagram, without UDP's checksum, as IPv4 allows."""
    head = struct.pack("!BBHHHBBH4s4s", 0x45, 0, 28 + len(octets), 0, 0x4000, 64, 17, 0,
                       socket.inet_aton(source[0]), socket.inet_aton(target[0]))
    total = sum(struct.unpack("!10H", head))
    total = (total & 0xFFFF) + (total >> 16)
    head = head[:10] + struct.pack("!H", ~total & 0xFFFF) + head[12:]
    ports = struct.pack("!HHHH", source[1], target[1], 8 + len(octets), 0)
    return b"\2\0\0\0\0\1\2\0\0\0\0\2\x08\0" + head + ports + octets


def message(number, flags, name, lifetime=None):
    """A question for an address, or its reply with one record."""
    numbers = 198, 18, *divmod(sum(name.encode()) * 7919 % 65536, 256)
    found = [] if lifetime is None else [packing.address(lifetime, *numbers)]
    return packing.message(number, flags, packing.question(packing.name(name)), found)


class Model:
    """A right service, with moments and lifetimes of its sets."""

    def __init__(self):
        self.cache, self.chosen, self.later = {}, random.Random(53), []
        self.order, self.ports = itertools.count(), itertools.cycle(range(1024, 60000))

    def send(self, time, source, target, octets):
        heapq.heappush(self.later, (time, next(self.order), datagram(source, target, octets)))

    def ask(self, time, number):
        """All packets of one question: 70 of 100 for known names, 2 for names that fail."""
        client = (f"10.1.{number % 199}.{number % 251 + 1}", 1024 + number % 60000)
        share, ident = self.chosen.random(), number * 31 % 65536
        name = f"new{number}.example" if share < 0.98 else f"silent{number}.example"
        name = f"host{int(2000 * share)}.example" if share < 0.7 else name
        self.send(time, client, SERVICE, message(ident, ASKED, name))
        if name.startswith("silent"):
            for index, server in enumerate(SERVERS):
                self.query(time + 200 + index * TRY, server, name)
            failed = time + 400 + 3 * TRY
            self.send(failed, SERVICE, client, message(ident, FAILED, name))
            return
        came, lifetime = self.cache.get(name, (0, 0))
        if time + 300 >= came + lifetime * 1000000:
            came, lifetime = time + 9000 + number % 700, 20 + number % 300
            self.query(time + 200, SERVERS[0], name, came, lifetime)
            self.cache[name] = came, lifetime
        ready = max(time, came)
        left = lifetime - (ready - came + 999999) // 1000000
        self.send(ready + 150, SERVICE, client, message(ident, ANSWERED, name, left))

    def query(self, time, server, name, came=None, lifetime=0):
        port, ident = (SERVICE[0], next(self.ports)), self.chosen.getrandbits(16)
        self.send(time, port, (server, 53), message(ident, ASKED, name))
        if came:
            self.send(came, (server, 53), port, message(ident, ANSWERED, name, lifetime))

    def write(self, path):
        with open(path, "wb") as file:
            file.write(struct.pack("<IHHiIII", 0xA1B2C3D4, 2, 4, 0, 0, 262144, 1))
            for number in range(QUESTIONS + 2000):
                time = BEGIN + number * GAP
                if number < QUESTIONS:
                    self.ask(time, number)
                while self.later and self.later[0][0] <= time:
                    at, _, octets = heapq.heappop(self.later)
                    head = struct.pack("<4I", *divmod(at, 1000000), len(octets), len(octets))
                    file.write(head + octets)


def tried(explainer, folder):
    """A line of the load, with seconds and octets; and the faults."""
    (folder / "load.toml").write_text(configuration(cache=65536))
    Model().write(folder / "load.pcap")
    told = judging.explained([*explainer, "--summary"], folder / "load.toml", folder / "load.pcap")
    wanted = {"questions": QUESTIONS, "right": QUESTIONS, "open": 0, "different": 0}
    counts = {key: told.summary.get(key) for key in wanted}
    wrong = [] if counts == wanted else [f"not all right: {counts} {told.last_error}"]
    if told.seconds > MOST_SECONDS:
        wrong.append(f"more than {MOST_SECONDS} s")
    if told.octets > MOST_OCTETS:
        wrong.append(f"more than {MOST_OCTETS} octets")
    return f"load: {QUESTIONS} questions, {told.seconds:.1f} s, {told.octets / 1e6:.0f} MB", wrong

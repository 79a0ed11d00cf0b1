"""An hour of an office, made for the picture of a page: the step of tools/reading serves it, and for
some minutes a server is silent."""
import heapq
import itertools
import random

from making import asked
from office import FORWARDER, OFFICE, Scene
from reading.configuration import read_configuration
from reading.script import words_of
from reading.step import Forwarder
from repository.packing import address, message

MINUTE = 60_000  # milliseconds
LASTS = 60 * MINUTE
SILENT = {"192.0.2.1:53": (25 * MINUTE, 33 * MINUTE), "192.0.2.2:53": (28 * MINUTE, 30 * MINUTE)}
NAMES = [f"{name}.example.com" for name in ("www", "mail", "new", "chat", *map("n{}".format, range(42)))]


class Hour(Scene):
    """The questions of an hour, in order, and the packets for them."""

    def __init__(self, seed):
        super().__init__()
        self.chance, self.coming, self.order = random.Random(seed), [], itertools.count()
        self.step = Forwarder(read_configuration(OFFICE.encode()))
        self.paths, self.lines = {}, itertools.count(1)

    def put(self, at, *event):
        heapq.heappush(self.coming, (at, next(self.order), event))

    def run(self):
        at = 0
        while at < LASTS:
            at += round(self.chance.expovariate(1 / 700))
            name = self.chance.choice(NAMES[: self.chance.choice((4, 12, 46))])
            name = self.chance.choice((name,) * 120 + ("printer.lan",) * 3 + ("wpad.corp.example",))
            client = f"10.0.0.{self.chance.choice((7, 7, 7, 8, 8, 9, 21, 22))}:{self.chance.randrange(30000, 60000)}"
            self.put(at, "client", ("udp", client), message(self.chance.randrange(65536), 0x0100, asked(name)))
        while self.coming:
            at, _, event = heapq.heappop(self.coming)
            if event[0] == "client":
                self.udp(at, event[1][1], FORWARDER, event[2])
            elif event[0] == "reply":
                if event[1][1] not in self.paths:
                    continue
                self.udp(at, event[2], f"10.0.0.53:{self.paths[event[1][1]]}", event[3])
            for action in self.step.step(at, words_of(next(self.lines)), *event):
                self.act(at, *action)
        return self.pcap()

    def act(self, at, kind, *rest):
        """Puts an action of the step into the capture, and any reply to it."""
        if kind == "reply":
            self.udp(at + 0.2, FORWARDER, rest[1], rest[3])
        elif kind == "ask-udp":
            number, server, octets = rest
            self.port += 1
            self.paths[number] = self.port
            self.udp(at + 0.2, f"10.0.0.53:{self.port}", server, octets)
            since, until = SILENT.get(server, (0, 0))
            self.put(at + 1000, "tick")
            if not since <= at < until and server != "10.0.0.10:53":
                data = address(300, 192, 0, 2, self.port % 250)
                took = round(self.chance.lognormvariate(3, 0.6))
                reply = message(int.from_bytes(octets[:2], "big"), 0x8180, octets[12:], [data])
                self.put(at + 1 + took, "reply", ("udp", number), server, reply)
        elif kind == "close-udp":
            self.paths.pop(rest[0], None)


def hour():
    return Hour(1).run()

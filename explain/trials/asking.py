"""Clients that ask the service, and note questions and answers."""
import contextlib
import dataclasses
import itertools
import select
import socket
import struct
import time

import dns.message
import dns.rcode

from world import CLIENTS, MACHINE

NUMBERS = itertools.count(1)


@dataclasses.dataclass
class Asked:
    """A question of a client, and its answer: None as long as nothing came."""

    stream: socket.socket
    number: int
    name: str
    kind: str
    to: tuple
    client: str = ""
    answer: bytes = None

    @property
    def row(self):
        code = None if self.answer is None else dns.rcode.to_text(self.answer[3] & 15)
        transport = "tcp" if self.stream.type == socket.SOCK_STREAM else "udp"
        return [self.client, transport, self.number, self.name.rstrip("."), self.kind, code]


class Clients:
    """The questions of a trial, in the order of asking."""

    def __init__(self):
        self.asked, self.came = [], {}

    def start(self, name, address=CLIENTS[0], tcp=False, over=None, to=(MACHINE, 53)):
        """Asks, and does not wait; an equal question `over` a socket is a repetition."""
        name, _, kind = name.partition("/")
        number = over.number if over and over.name == name else next(NUMBERS) * 7919 % 65535 + 1
        stream = over.stream if over else socket.socket(
            socket.AF_INET, socket.SOCK_STREAM if tcp else socket.SOCK_DGRAM)
        asked = Asked(stream, number, name, kind or "A", to)
        if not over:
            stream.bind((address, 0))
            if stream.connect_ex(to):
                return asked  # refused: no question came
        query = dns.message.make_query(name, asked.kind, use_edns=False)
        query.id, asked.client = number, "%s:%d" % stream.getsockname()
        wire = query.to_wire()
        stream.sendall(struct.pack("!H", len(wire)) + wire if asked.row[1] == "tcp" else wire)
        self.asked.append(asked)
        return asked

    def receive(self, stream, seconds):
        """Takes octets of a socket, for some seconds at most; returns whether more may come."""
        if stream.fileno() < 0 or not select.select([stream], [], [], max(0, seconds))[0]:
            return False
        octets = stream.recv(65537)
        got = self.came.setdefault(stream, [])
        if stream.type == socket.SOCK_DGRAM:
            got.append(octets)
            return True
        held = got.pop() + octets if got else octets
        while len(held) > 2 and len(held) >= 2 + (size := struct.unpack("!H", held[:2])[0]):
            got.append(held[2:2 + size])
            held = held[2 + size:]
        got.append(held)
        return bool(octets)

    def take(self, asked):
        """The answer with the question's identifier, if any; an answer is of a single question."""
        for octets in self.came.get(asked.stream, []) if asked.answer is None else []:
            if len(octets) > 3 and octets[:2] == struct.pack("!H", asked.number):
                asked.answer = octets
                self.came[asked.stream].remove(octets)
                break
        return asked.answer

    def end(self, asked, seconds=3.0):
        """Waits for the answer; a refusal or the end of the connection is no answer."""
        end = time.monotonic() + seconds
        with contextlib.suppress(OSError):
            while self.take(asked) is None and self.receive(asked.stream, end - time.monotonic()):
                pass
        return asked

    def rows(self, to):
        """The questions to a service, with the answers by now."""
        return [self.end(asked, 0).row for asked in self.asked if asked.to == to]

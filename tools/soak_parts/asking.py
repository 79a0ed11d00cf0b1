"""The clients: they ask at the times of the office, over UDP and TCP, and write down the
answers."""
import contextlib
import errno
import heapq
import itertools
import os
import pickle
import select
import signal
import socket
import struct
import sys
import time
from typing import NamedTuple

from repository.packing import framed, query
from soak_parts.clock import DAY
from soak_parts.office import FORWARDER
from soak_parts.people import Day
from soak_parts.zones import KINDS

# Seconds until a client asks again, in silence or if nobody listens; and until it gives up.
AGAIN, REFUSED, OVER = 5, 1, 60
MOST = 3  # sendings of a question over UDP
TC, LONGEST = 2, 65_535
PATIENCE = 0.02  # seconds of the system between two looks at the time, at most


class Exchange(NamedTuple):
    """A question and its outcome: nanoseconds of the system, and an answer, empty for none."""

    asked: int
    answered: int
    client: int
    over_tcp: bool
    question: bytes
    answer: bytes


def address_of(client):
    return f"10.0.{4 + client // 250}.{1 + client % 250}"


class Conversation:
    """A client's question on its way, over a socket of its own."""

    def __init__(self, client, octets, over_tcp):
        self.client, self.octets, self.over_tcp = client, octets, over_tcp
        self.asked, self.sent, self.got = time.time_ns(), 0, b""
        self.socket = socket.socket(type=socket.SOCK_STREAM if over_tcp else socket.SOCK_DGRAM)
        self.socket.setblocking(False)
        self.socket.bind((address_of(client), 0))
        found = self.socket.connect_ex((FORWARDER, 53))
        if found not in (0, errno.EINPROGRESS):
            raise OSError(found, os.strerror(found))

    def send(self):
        self.sent += 1
        self.socket.send(framed(self.octets) if self.over_tcp else self.octets)

    def take(self):
        """The answer, or None if more has to come. Empty is the end of the connection."""
        octets = self.socket.recv(LONGEST)
        if not self.over_tcp:
            return octets
        self.got += octets
        if not octets:
            return b""
        is_whole = len(self.got) >= 2 and len(self.got) >= 2 + struct.unpack(">H", self.got[:2])[0]
        return self.got[2:] if is_whole else None


class Clients:
    """All clients, in one process. `file` takes the exchanges, one pickle each."""

    def __init__(self, clock):
        self.clock, self.file = clock, None
        self.poll, self.open, self.due, self.numbers = select.epoll(), {}, [], itertools.count()

    def ask(self, client, octets, over_tcp):
        conversation = Conversation(client, octets, over_tcp)
        self.open[conversation.socket.fileno()] = conversation
        self.poll.register(conversation.socket, select.EPOLLOUT if over_tcp else select.EPOLLIN)
        self.wake(conversation, OVER if over_tcp else AGAIN)
        if not over_tcp:
            self.attempt(conversation)

    def wake(self, conversation, seconds):
        """Looks at a conversation again after these seconds of the office."""
        moment = time.time_ns() + int(seconds * 1e9 / self.clock.speed)
        heapq.heappush(self.due, (moment, next(self.numbers), conversation))

    def attempt(self, conversation):
        try:
            conversation.send()
        except OSError:
            self.refused(conversation)

    def refused(self, conversation):
        """Nobody listens: over UDP the client tries again soon."""
        if conversation.over_tcp:
            self.end(conversation, b"")
        else:
            self.wake(conversation, REFUSED)

    def end(self, conversation, answer):
        """Writes down the answer. After a cut answer the client goes on over TCP."""
        self.poll.unregister(conversation.socket)
        del self.open[conversation.socket.fileno()]
        conversation.socket.close()
        over_tcp, octets, client = conversation.over_tcp, conversation.octets, conversation.client
        found = (conversation.asked, time.time_ns(), client, over_tcp, octets, answer)
        pickle.dump(found, self.file)
        if not over_tcp and len(answer) > TC and answer[TC] & TC:
            self.ask(client, os.urandom(2) + octets[2:], True)

    def turn(self, seconds):
        """Takes answers for some seconds of the system, and does all that is due."""
        for number, event in self.poll.poll(max(0, seconds)):
            conversation = self.open[number]
            if event & select.EPOLLOUT and not event & (select.EPOLLERR | select.EPOLLHUP):
                self.poll.modify(number, select.EPOLLIN)
                self.attempt(conversation)
                continue
            try:
                answer = conversation.take()
            except OSError:
                self.refused(conversation)
                continue
            if answer is not None:
                self.end(conversation, answer)
        while self.due and self.due[0][0] <= time.time_ns():
            self.look_at(heapq.heappop(self.due)[2])

    def look_at(self, conversation):
        if conversation.socket.fileno() < 0:
            return
        if time.time_ns() - conversation.asked > OVER * 1e9 / self.clock.speed:
            self.end(conversation, b"")
        elif not conversation.over_tcp:
            self.wake(conversation, AGAIN)
            if conversation.sent < MOST:
                self.attempt(conversation)

    def until(self, seconds):
        """Waits for a time of the office."""
        while (left := self.clock.left(seconds)) > 0:
            due = (self.due[0][0] - time.time_ns()) / 1e9 if self.due else left
            self.turn(min(left, due, PATIENCE))
        self.turn(0)


def ask_all(clock, office, visits, days, file_of):
    """Asks all questions of some days; `file_of` gives a day's path. SIGTERM comes early."""
    signal.signal(signal.SIGINT, signal.SIG_IGN)
    signal.signal(signal.SIGTERM, lambda *_: sys.exit(0))
    clients = Clients(clock)
    for day in range(days):
        questions = Day(office, day, visits).questions()
        with open(file_of(day), "wb") as clients.file:
            for asked in questions:
                clients.until(asked.at)
                number = int.from_bytes(os.urandom(2), "big")
                octets = query(asked.name, KINDS[asked.kind], number)
                clients.ask(asked.client, octets, asked.over_tcp)
            clients.until((day + 1) * DAY)
    with open(file_of(days), "wb") as clients.file:
        clients.until(days * DAY + OVER)


def exchanges(folder):
    """The exchanges that were written down, in the order of the answers."""
    days = sorted(int(path.name.removeprefix("asked")) for path in folder.glob("asked*"))
    for day in days:
        path = folder / f"asked{day}"
        with open(path, "rb") as file, contextlib.suppress(EOFError, pickle.UnpicklingError):
            while True:
                yield Exchange(*pickle.load(file))

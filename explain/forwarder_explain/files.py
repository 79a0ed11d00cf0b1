"""The files of captures: one, standard input, or a folder of tcpdump -C -W; whole, or as they grow."""
import os
import pathlib
import select
import sys
import time
from collections import deque

from .capture import Capture, Unreadable
from .times import LOOK, SECOND

AT_ONCE = 1 << 16  # octets of a read
MOST_HEAD = 512  # octets at the beginning of a file by which it is known


def opened(path, buffering=-1):
    try:
        return sys.stdin.buffer if path == "-" else open(path, "rb", buffering)
    except OSError as fault:
        raise Unreadable(fault.strerror, path) from None


def captures_in(path, until):
    """The names of the captures of a path, by their first packets; of a folder those that begin before a moment."""
    if path == "-" or not os.path.isdir(path):
        return [path]
    found = []
    for each in sorted(pathlib.Path(path).iterdir()):
        moment = first_moment(str(each)) if each.is_file() else None
        if moment is not None and (until is None or moment < until):
            found.append((moment, str(each)))
    if not found:
        raise Unreadable("has no capture" + (" of that time" if until is not None else ""), path)
    return [name for _, name in sorted(found)]


def first_moment(path):
    with opened(path) as file:
        try:
            packet = next(Capture(file).packets(), None)
        except Unreadable:
            return None
    return packet and packet[0]


class Growing:
    """Octets that were read and not yet taken. `read` waits for all its octets, up to the end of the file.
    `reader.reading` is called before each read of a file, `reader.idle` while there is nothing to read; both may raise
    an exception that ends the reading."""

    def __init__(self):
        self.octets, self.at = b"", 0

    def read(self, size):
        while len(self.octets) - self.at < size and (more := self.more()):
            self.octets, self.at = self.octets[self.at :] + more, 0
        found = self.octets[self.at : self.at + size]
        self.at += len(found)
        return found


class Pipe(Growing):
    """Standard input."""

    def __init__(self, file, reader):
        super().__init__()
        self.number, self.reader = file.fileno(), reader

    def more(self):
        while not select.select([self.number], [], [], LOOK / SECOND)[0]:
            self.reader.idle()
        self.reader.reading()
        return os.read(self.number, AT_ONCE)


class RingFile(Growing):
    """A file of a ring. It ends once another was begun later."""

    def __init__(self, file, ring):
        super().__init__()
        self.file, self.ring, self.head = file, ring, b""
        self.is_over = self.was_rewritten = False

    def more(self):
        while True:
            self.ring.reader.reading()
            octets = self.file.read(AT_ONCE)
            # tcpdump -W empties the oldest file, and takes its name.
            self.was_rewritten = os.pread(self.file.fileno(), len(self.head), 0) != self.head
            if self.was_rewritten or self.is_over and not octets:
                return b""
            if octets:
                self.head += octets[: MOST_HEAD - len(self.head)]
                return octets
            # This file was written before the next one was begun; so one more look is enough.
            self.is_over = self.ring.has_more()
            if not self.is_over:
                self.ring.wait()


class Ring:
    """The captures of a folder, or a single one, in the order of their beginnings, without those from before `since`. A
    capture that gets another name is still the same. `note` is called with each loss."""

    def __init__(self, path, reader, note):
        self.path, self.reader, self.note, self.since = path, reader, note, 0
        self.begun, self.seen, self.queue = {}, {}, deque()
        try:
            os.stat(path)
        except OSError as fault:
            raise Unreadable(fault.strerror, path) from None
        self.look()

    def paths(self):
        if not os.path.isdir(self.path):
            return {self.path: stamp(os.stat(self.path))}
        with os.scandir(self.path) as entries:
            return {each.path: stamp(each.stat()) for each in entries if each.is_file()}

    def look(self):
        """Queues the captures that were begun since the last look."""
        try:
            seen = self.paths()
        except FileNotFoundError:  # a file is gone since the folder was listed
            return
        except OSError as fault:
            raise Unreadable(fault.strerror, self.path) from None
        found, known = [], {(self.seen[path][0], begun): path for path, begun in self.begun.items()}
        for path in seen:
            begun = self.begun.get(path) if seen[path] == self.seen.get(path) else beginning(path)
            if begun is None or self.begun.get(path) == begun:
                continue
            self.begun[path] = begun
            before = known.get((seen[path][0], begun))
            if before is None:
                found.append((begun, path))
            else:  # it has another name
                self.queue = deque((begun, path) if each == (begun, before) else each for each in self.queue)
        self.seen = seen
        self.begun = {path: begun for path, begun in self.begun.items() if path in seen}
        self.queue.extend(sorted(found))

    def has_more(self):
        self.look()
        return bool(self.queue)

    def wait(self):
        self.reader.idle()
        time.sleep(LOOK / SECOND)

    def captures(self):
        if not self.queue:
            self.note("has no capture with a packet yet")
        while True:
            while not self.has_more():
                self.wait()
            begun, path = self.queue[0]
            if beginning(path) != begun:
                self.look()  # it may just have got another name
                begun, path = self.queue[0]
            self.queue.popleft()
            if self.queue and self.queue[0][0] <= self.since:
                continue
            if beginning(path) != begun:
                self.note(f"{os.path.basename(path)} was removed or written anew before it was read")
                continue
            with opened(path, 0) as file:
                growing = RingFile(file, self)
                yield growing
            if growing.was_rewritten:
                self.note(f"{os.path.basename(path)} was written anew before all of it was read")


def stamp(status):
    return status.st_ino, status.st_size, status.st_mtime_ns


def beginning(path):
    """The moment of a capture's first packet; None if there is none yet, or the capture is gone."""
    try:
        return first_moment(path)
    except Unreadable:
        if os.path.exists(path):
            raise
        return None

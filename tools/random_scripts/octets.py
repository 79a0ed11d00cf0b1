"""Messages as any peer may write them: with pointers or without, in any letter case, or broken."""
import struct

from reading.messages import NAME, SHAPES, STRING

# The parts of data: the reading's, and such parts in types that it takes as opaque.
DATA = {
    **SHAPES, 1: (4,), 28: (16,), 16: (STRING, STRING), 13: (STRING, STRING), 11: (4, 1, 2),
    24: (18, NAME, 8), 30: (NAME, 3), 36: (2, NAME), 39: (NAME,), 10: (7,), 99: (STRING,),
    65280: (5,), 257: (2, 5),
}


def other_case(random, name):
    """The name with some of its letters in the other case."""
    return tuple(label.swapcase() if random.random() < 0.5 else label for label in name)


class Writer:
    """Writes a message, with a pointer for some of the names that were written before."""

    def __init__(self, random):
        self.random, self.out, self.places = random, bytearray(), {}
        self.pointers = random.choice((0, 0.5, 0.9, 1))
        self.cases = random.choice((0, 0, 0.2))
        self.strange = random.choice((0,) * 19 + (0.1,))

    def header(self, number, flags, counts):
        self.out += struct.pack("!6H", number, flags, *counts)

    def name(self, name):
        """A name; a suffix written before may be a pointer, at times a strange pointer."""
        name = other_case(self.random, name) if self.random.random() < self.cases else name
        start = len(self.out)
        for first, label in enumerate(name):
            if self.random.random() < self.strange:
                near = (start - 1, start, start + 1, len(self.out), len(self.out) + 2, 11)
                place = self.random.choice((*near, self.random.randrange(start + 1)))
                self.out += struct.pack("!H", 0xC000 | place & 0x3FFF)
                return
            suffix = tuple(each.lower() for each in name[first:])
            if suffix in self.places and self.random.random() < self.pointers:
                place = self.random.choice(self.places[suffix])
                self.out += struct.pack("!H", 0xC000 | place)
                return
            if len(self.out) < 0x4000:
                self.places.setdefault(suffix, []).append(len(self.out))
            self.out += bytes([len(label)]) + label
        self.out += b"\0"

    def question(self, name, kind, class_):
        self.name(name)
        self.out += struct.pack("!2H", kind, class_)

    def record(self, owner, kind, class_, ttl, data):
        """A record; at times its RDLENGTH is wrong."""
        self.name(owner)
        self.out += struct.pack("!2HI", kind, class_, ttl)
        start = len(self.out) + 2
        self.out += b"\0\0"
        for part in data:
            if isinstance(part, tuple):
                self.name(part)
            else:
                self.out += part
        wrong = self.random.choice((-1, 1)) if self.random.random() < 0.002 else 0
        self.out[start - 2:start] = struct.pack("!H", max(0, len(self.out) - start + wrong))


def broken(random, octets):
    """The octets cut, with more after them, or with one of them changed."""
    how = random.randrange(4)
    if how == 0:
        return octets[:random.randrange(len(octets) + 1)]
    if how == 1:
        return octets + bytes(random.choice((1, 3, 600)))
    at = random.randrange(len(octets))
    new = random.choice((0, 1, 63, 64, 0xC0, 0xFF, random.randrange(256)))
    return octets[:at] + bytes([new]) + octets[at + 1:]

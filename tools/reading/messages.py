"""Names, messages and record data: how they are read and written.

A name is a tuple of labels, the root an empty one. Record data is a tuple of parts: octets as
bytes, names as tuples. So data is equal if it has equal octets once its names are written in full.
"""
import functools
import struct
from dataclasses import dataclass

CNAME, SOA, NS = 5, 6, 2
LONGEST_NAME, LONGEST_LABEL, LONGEST_MESSAGE = 255, 63, 65_535
LAST_PLACE = 16_383

# The parts of record data that has names (RFC 1035 3.3; RFC 1183 for RP, AFSDB and RT; RFC 2163 for
# PX; RFC 2782 for SRV; RFC 3403 4.1 for NAPTR): so many octets, a character-string, or a name.
NAME, STRING = "name", "string"
SHAPES = {
    **dict.fromkeys((NS, 3, 4, CNAME, 7, 8, 9, 12), (NAME,)),  # also MD, MF, MB, MG, MR, PTR
    **dict.fromkeys((14, 17), (NAME, NAME)),  # MINFO, RP
    **dict.fromkeys((15, 18, 21), (2, NAME)),  # MX, AFSDB, RT
    SOA: (NAME, NAME, 20),
    26: (2, NAME, NAME),  # PX
    33: (6, NAME),  # SRV
    35: (4, STRING, STRING, STRING, NAME),  # NAPTR
}
# The types whose names may be written with pointers: those of RFC 1035 alone (RFC 3597 4).
COMPRESSED = {2, 3, 4, 5, 6, 7, 8, 9, 12, 14, 15}


class Unreadable(Exception):
    """The octets do not spell what is read."""


@dataclass(frozen=True)
class Header:
    """RFC 1035 4.1.1. The counts are those of questions, answers, authority and additional."""
    id: int
    qr: bool = False
    opcode: int = 0
    aa: bool = False
    tc: bool = False
    rd: bool = False
    ra: bool = False
    rcode: int = 0
    counts: tuple = (0, 0, 0, 0)


@dataclass(frozen=True)
class Question:
    """RFC 1035 4.1.2."""
    name: tuple
    kind: int
    class_: int

    def same(self, other):
        """Questions are equal if name, type and class are."""
        mine, others = (self.kind, self.class_), (other.kind, other.class_)
        return mine == others and key(self.name) == key(other.name)


@dataclass(frozen=True)
class Record:
    """RFC 1035 4.1.3; the TTL in seconds, its top bit as it came."""
    owner: tuple
    kind: int
    class_: int
    ttl: int
    data: tuple


@dataclass(frozen=True)
class Message:
    """A header and the records of two sections; nothing else is ever used."""
    header: Header
    answers: list
    authority: list


@functools.lru_cache(maxsize=65_536)
def key(name):
    """Names are equal without regard to ASCII letter case (RFC 1035 2.3.3): the form to compare."""
    return tuple(label.lower() for label in name)


def is_under(name, upper):
    """A name is under each name of its last labels: also under the root, and under itself."""
    return key(name[len(name) - len(upper):]) == key(upper) if len(upper) <= len(name) else False


def length_of(name):
    """The octets of a name in full: a length for each label, and the final zero (RFC 1035 3.1)."""
    return sum(len(label) + 1 for label in name) + 1


def take(octets, place, count, end):
    """So many octets from a place on, which have to be there before `end`."""
    if place + count > end:
        raise Unreadable
    return octets[place:place + count]


def read_name(octets, place, end):
    """A name and the place after it (RFC 1035 4.1.4).

    A pointer has to lead to an octet before its run of labels, in which no pointer came yet. There
    a new run begins. Only the first run has to lie before `end`: a pointer may lead to any place.
    """
    labels, after, run, left = [], None, place, LONGEST_NAME - 1
    while True:
        length = take(octets, place, 1, end)[0]
        if length >= 0xC0:
            target = struct.unpack("!H", take(octets, place, 2, end))[0] & 0x3FFF
            after = place + 2 if after is None else after
            if target >= run:
                raise Unreadable
            place = run = target
            end = len(octets)
            continue
        if length > LONGEST_LABEL:
            raise Unreadable
        label = take(octets, place + 1, length, end)
        place += 1 + length
        if not label:
            return tuple(labels), place if after is None else after
        labels.append(label)
        left -= 1 + length
        if left < 0:
            raise Unreadable


def shape_of(kind, _class):
    """The parts of a type's data, whatever its class; None for all other types (RFC 3597 3)."""
    return SHAPES.get(kind)


def read_data(octets, place, end, shape):
    """Record data from `place` to `end`, which the parts of its shape have to fill exactly."""
    if shape is None:
        return (octets[place:end],)
    parts = []
    for part in shape:
        if part == NAME:
            read, place = read_name(octets, place, end)
        else:
            count = 1 + take(octets, place, 1, end)[0] if part == STRING else part
            read = take(octets, place, count, end)
            place += count
        parts.append(read)
    if place != end:
        raise Unreadable
    return tuple(parts)


def read_header(octets):
    """The first twelve octets, from the high bit down; the three bits Z are passed over."""
    number, flags, *counts = struct.unpack("!6H", take(octets, 0, 12, len(octets)))
    qr, aa, tc, rd, ra = (bool(flags >> bit & 1) for bit in (15, 10, 9, 8, 7))
    return Header(number, qr, flags >> 11 & 15, aa, tc, rd, ra, flags & 15, tuple(counts))


def read_question(octets, place):
    """A question and the place after it."""
    name, place = read_name(octets, place, len(octets))
    kind, class_ = struct.unpack("!2H", take(octets, place, 4, len(octets)))
    return Question(name, kind, class_), place + 4


def read_record(octets, place):
    """A record and the place after it."""
    owner, place = read_name(octets, place, len(octets))
    kind, class_, ttl, length = struct.unpack("!2HIH", take(octets, place, 10, len(octets)))
    place += 10
    take(octets, place, length, len(octets))
    data = read_data(octets, place, place + length, shape_of(kind, class_))
    return Record(owner, kind, class_, ttl, data), place + length


def first_question(octets):
    """The question of a message with a single one; later octets are not looked at."""
    if read_header(octets).counts[0] != 1:
        raise Unreadable
    return read_question(octets, 12)[0]


def read_message(octets):
    """A message whose counted questions and records can all be read; octets after them are free."""
    header, place, sections = read_header(octets), 12, []
    for _ in range(header.counts[0]):
        place = read_question(octets, place)[1]
    for count in header.counts[1:]:
        sections.append([])
        for _ in range(count):
            record, place = read_record(octets, place)
            sections[-1].append(record)
    return Message(header, *sections[:2])


def write_name(out, name, places):
    """Writes a name; with `places`, its longest suffix written before is a pointer to there.

    Letter case counts. A place is where a label of such a name was written, up to the offset that
    a pointer can have; of equal suffixes the earliest is taken (RFC 1035 4.1.4).
    """
    for first in range(len(name)):
        suffix = name[first:]
        if places is not None and suffix in places:
            out += struct.pack("!H", 0xC000 | places[suffix])
            return
        if places is not None and len(out) <= LAST_PLACE:
            places[suffix] = len(out)
        out += bytes([len(name[first])]) + name[first]
    out += b"\0"


def write_record(out, record, places):
    """Writes a record; RDLENGTH counts what is written."""
    write_name(out, record.owner, places)
    out += struct.pack("!2HI", record.kind, record.class_, record.ttl)
    start = len(out) + 2
    out += b"\0\0"
    for part in record.data:
        if isinstance(part, tuple):
            write_name(out, part, places if record.kind in COMPRESSED else None)
        else:
            out += part
    out[start - 2:start] = struct.pack("!H", len(out) - start)


def write_message(header, question, answers=(), authority=()):
    """The octets of a message with at most one question, and nothing in its additional section."""
    bits = ((header.qr, 15), (header.opcode, 11), (header.aa, 10), (header.tc, 9), (header.rd, 8),
            (header.ra, 7), (header.rcode, 0))
    counts = (int(question is not None), len(answers), len(authority), 0)
    out, places = bytearray(), {}
    out += struct.pack("!6H", header.id, sum(value << bit for value, bit in bits), *counts)
    if question is not None:
        write_name(out, question.name, places)
        out += struct.pack("!2H", question.kind, question.class_)
    for record in (*answers, *authority):
        write_record(out, record, places)
    return bytes(out)

"""Messages of the DNS (RFC 1035 4.1), as far as an explanation needs them. Names are octets, as in a message."""
import functools
import struct
from typing import NamedTuple

NAME, STRING = "name", "string"
# RDATA with names, by type: a name, a character string, or a number of other octets.
SHAPES = {
    **dict.fromkeys((2, 3, 4, 5, 7, 8, 9, 12), (NAME,)),
    **dict.fromkeys((14, 17), (NAME, NAME)),
    **dict.fromkeys((15, 18, 21), (2, NAME)),
    6: (NAME, NAME, 20),
    26: (2, NAME, NAME),
    33: (6, NAME),
    35: (4, STRING, STRING, STRING, NAME),
}
COMPRESSED = {2, 3, 4, 5, 6, 7, 8, 9, 12, 14, 15}  # types whose names are compressed (RFC 1035 3.3, RFC 3597 4)
KINDS = (
    "1 A,2 NS,5 CNAME,6 SOA,12 PTR,13 HINFO,15 MX,16 TXT,17 RP,18 AFSDB,28 AAAA,29 LOC,33 SRV,35 NAPTR,39 DNAME,"
    "41 OPT,43 DS,44 SSHFP,46 RRSIG,47 NSEC,48 DNSKEY,50 NSEC3,51 NSEC3PARAM,52 TLSA,64 SVCB,65 HTTPS,99 SPF,"
    "250 TSIG,251 IXFR,252 AXFR,255 ANY,256 URI,257 CAA"
)
TYPES = {int(number): name for number, name in (pair.split(" ") for pair in KINDS.split(","))}
CODES = "NOERROR FORMERR SERVFAIL NXDOMAIN NOTIMP REFUSED YXDOMAIN YXRRSET NXRRSET NOTAUTH NOTZONE".split(" ")
CODES += (f"code {number}" for number in range(11, 16))
NS, CNAME, SOA = 2, 5, 6
HEADER, OPERATION = 12, 0x78  # octets; the bits of the operation in the third octet
COUNTS, HEAD = struct.Struct(">4H").unpack_from, struct.Struct(">2HIH").unpack_from
# Of a name, each octet as RFC 1035 5.1 has it.
LETTERS = [f"\\{chr(octet)}" if 33 <= octet < 127 else f"\\{octet:03}" for octet in range(256)]
for plain in b"abcdefghijklmnopqrstuvwxyzABCDEFGHIJKLMNOPQRSTUVWXYZ0123456789-_":
    LETTERS[plain] = chr(plain)


class Malformed(Exception):
    """A message that can't be read."""


class Question(NamedTuple):
    """A question: `key` is the name in lower case, equal questions have an equal `same`, `written` are the octets."""

    name: bytes
    key: bytes
    kind: int
    klass: int
    same: tuple
    written: bytes

    def text(self):
        return f"{text(self.name)} {kind_text(self.kind, self.klass)}"


class Record(NamedTuple):
    """A record; the names in `data` are written out."""

    owner: bytes
    key: bytes
    kind: int
    klass: int
    seconds: int
    data: bytes


def is_cut(octets):
    return len(octets) >= HEADER and bool(octets[2] & 2)


def code(octets):
    """The result code; None of a message without a whole header."""
    return octets[3] & 15 if len(octets) >= HEADER else None


def name_at(octets, at):
    """The name at an offset, and the offset after. A pointer leads to before its own run of labels."""
    parts, end, total, start = [], None, 1, at
    try:
        while size := octets[at]:
            if size >= 192:
                end = end or at + 2
                at = (size & 63) << 8 | octets[at + 1]
                if at >= start:
                    raise Malformed("a pointer leads forward")
                start = at
                continue
            total += size + 1
            if size > 63 or total > 255 or at + 1 + size > len(octets):
                raise Malformed("a label")
            parts.append(octets[at : at + 1 + size])
            at += 1 + size
    except IndexError:
        raise Malformed("a name") from None
    return b"".join(parts) + b"\0", end or at + 1


@functools.lru_cache(maxsize=5_000)
def question_in(body):
    return read_question(b"\0\0" + body)


def read_question(octets):
    if len(octets) < HEADER or octets[4:6] != b"\0\1":
        return None
    try:
        name, at = name_at(octets, HEADER)
        kind, klass = struct.unpack_from(">2H", octets, at)
    except (Malformed, struct.error):
        return None
    key = name if name.islower() else name.lower()  # mostly one object: there are many
    return Question(name, key, kind, klass, (key, kind, klass), name + octets[at : at + 4])


def question_of(octets):
    """The only question of any message, or None. With a pointer, perhaps to the identifier, nothing is remembered."""
    return question_in(octets[2:]) if octets[HEADER : HEADER + 255].isascii() else read_question(octets)


def records(octets, asked=None):
    """The records of the answer and of the authority section, or Malformed. `asked` is the question, if well placed."""
    if len(octets) < HEADER:
        raise Malformed("a header")
    counts, at, sections = COUNTS(octets, 4), HEADER, ([], [], [])
    known = None if asked is None else b"\xc0\x0c"
    try:
        if asked is not None:
            at += len(asked.written)
        else:
            for _ in range(counts[0]):
                at = name_at(octets, at)[1] + 4
        for found, count in zip(sections, counts[1:]):
            for _ in range(count):
                if octets[at : at + 2] == known:
                    owner, key, at = asked.name, asked.key, at + 2
                else:
                    owner, at = name_at(octets, at)
                    key = owner.lower()
                kind, klass, seconds, size = HEAD(octets, at)
                start, at = at + 10, at + 10 + size
                if at > len(octets):
                    raise Malformed("a record")
                data = written_out(octets, kind, start, at) if kind in SHAPES else octets[start:at]
                found.append(Record(owner, key, kind, klass, seconds, data))
    except (struct.error, IndexError):
        raise Malformed("a record") from None
    return sections[:2]


def written_out(octets, kind, start, end):
    """The RDATA between two offsets with its names written out."""
    found, at = b"", start
    for part in SHAPES[kind]:
        if part is NAME:
            name, at = name_at(octets, at)
            found += name
        else:
            size = 1 + octets[at] if part is STRING else part
            found, at = found + octets[at : at + size], at + size
    if at != end:
        raise Malformed("RDATA")
    return found


def size_with(asked, rows):
    """How many octets the forwarder's message has with a question and records, each owner, kind and data. The longest
    suffix of a name that was written before is a pointer (RFC 1035 4.1.4)."""
    size, places = HEADER + 4, set()

    def name_size(name):
        written = 0
        for suffix in parents(name):
            if suffix in places:
                return written + 2
            if suffix == b"\0":
                return written + 1
            places.add(suffix)
            written += 1 + suffix[0]

    size += name_size(asked.name)
    for owner, kind, data in rows:
        size += name_size(owner) + 10
        shape, at = SHAPES.get(kind, ()) if kind in COMPRESSED else (), 0
        for part in shape:
            if part is NAME:
                name, at = name_at(data, at)
                size += name_size(name)
            else:
                size, at = size + part, at + part
        size += len(data) - at
    return size


@functools.lru_cache(maxsize=5_000)
def text(name):
    labels = (above[1 : 1 + above[0]] for above in parents(name) if above[0])
    return ".".join("".join(map(LETTERS.__getitem__, label)) for label in labels) or "."


def from_text(words):
    labels = [] if words == "." else words.rstrip(".").lower().split(".")
    if any(not 1 <= len(label) <= 63 for label in labels):
        return None
    return b"".join(bytes([len(label)]) + label.encode("utf-8", "surrogateescape") for label in labels) + b"\0"


def parents(key):
    while key != b"\0":
        yield key
        key = key[1 + key[0] :]
    yield key


def is_under(key, suffix):
    return key == suffix or key.endswith(suffix) and suffix in parents(key)


def kind_text(kind, klass=1):
    shown = TYPES.get(kind, f"TYPE{kind}")
    return shown if klass == 1 else f"{shown} (class {klass})"

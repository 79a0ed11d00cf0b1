"""The content of a reply: the sets and denials that the forwarder keeps (RFC 1034 5.3.3, RFC 2181 5, RFC 2308)."""
from typing import NamedTuple

from . import messages
from .messages import CNAME, HEADER, NS, SOA

LONGEST, LONGEST_DENIAL = 604_800, 10_800  # seconds
MOST_ALIASES = 8
UNSERVED_TYPES = {0, 41, *range(128, 256)}
ANY_CLASS = 255
SET, NO_DATA, NAME_ERROR = "set", "no data", "name error"


class Piece(NamedTuple):
    """A record set, or a denial with any SOA: kept and answered as a whole.

    `rows` are the data of a set in order, or owner and data of the SOA; `kind` is None if the name itself is denied."""

    form: str
    key: bytes
    klass: int
    kind: object
    rows: tuple
    seconds: int
    rank: int = 3

    def slot(self):
        return self.key, self.klass, self.kind


class Walk(NamedTuple):
    """The pieces of a reply; `leads_to` is a name left open."""

    pieces: tuple
    leads_to: object = None


LAME = Walk(None)  # a reply that neither answers nor denies


def lifetime(seconds):
    return 0 if seconds >= 1 << 31 else min(seconds, LONGEST)


class Walking:
    """Walks a reply to a question, from the asked name along aliases."""

    def __init__(self, configuration, octets, asked):
        self.configuration, self.asked = configuration, asked
        self.code, self.authoritative = messages.code(octets), bool(octets[2] & 4)
        self.sets, self.pieces = {}, []
        is_written = octets[4:6] == b"\0\1" and octets[HEADER : HEADER + len(asked.written)] == asked.written
        answers, self.authority = messages.records(octets, asked if is_written else None)
        for record in answers:
            self.sets.setdefault((record.key, record.klass, record.kind), []).append(record)
        self.route = configuration.route_of(asked.key)

    def walk(self):
        asked, spelled = self.asked, self.asked.name
        while True:
            name = spelled.lower()
            if self.configuration.route_of(name) is not self.route or len(self.pieces) == MOST_ALIASES:
                return Walk(tuple(self.pieces), spelled)
            found = self.sets.get((name, asked.klass, asked.kind))
            rows = found or (None if asked.kind == CNAME else self.sets.get((name, asked.klass, CNAME)))
            if not rows:
                return self.denial(name, spelled)
            data = distinct(rows)
            if rows[0].kind == CNAME and len(data) > 1:
                return LAME
            self.add(SET, name, rows[0].kind, data, min(lifetime(each.seconds) for each in rows))
            if found:
                return self.ended()
            spelled = data[0]

    def add(self, form, name, kind, rows, seconds):
        rank = 3 if self.authoritative and name == self.asked.key else 1
        self.pieces.append(Piece(form, name, self.asked.klass, kind, rows, seconds, rank))

    def denial(self, name, spelled):
        klass = self.asked.klass
        fitting = (each for each in self.authority if each.kind == SOA and each.klass == klass)
        soa = next((each for each in fitting if messages.is_under(name, each.key)), None)
        if self.code != 3 and not soa:
            if self.pieces:
                return Walk(tuple(self.pieces), spelled)
            if not self.authoritative and any(record.kind == NS for record in self.authority):
                return LAME
        seconds, rows = 0, ()
        if soa:
            seconds = min(lifetime(soa.seconds), int.from_bytes(soa.data[-4:], "big"), LONGEST_DENIAL)
            rows = soa.key, soa.data
        form, kind = (NAME_ERROR, None) if self.code == 3 else (NO_DATA, self.asked.kind)
        self.add(form, name, kind, rows, seconds)
        return self.ended()

    def ended(self):
        """The pieces, with the name servers in the authority section of an authoritative reply."""
        servers, there = {}, {piece.key for piece in self.pieces}
        for record in self.authority if self.authoritative else ():
            if record.kind == NS and record.klass == self.asked.klass and record.key not in there:
                is_above = messages.is_under(self.asked.key, record.key)
                if is_above and self.configuration.route_of(record.key) is self.route:
                    servers.setdefault(record.key, []).append(record)
        for key, rows in servers.items():
            seconds = min(lifetime(each.seconds) for each in rows)
            self.pieces.append(Piece(SET, key, self.asked.klass, NS, distinct(rows), seconds, 2))
        return Walk(tuple(self.pieces))


def distinct(rows):
    return (rows[0].data,) if len(rows) == 1 else tuple(dict.fromkeys(each.data for each in rows))


def is_unserved(asked):
    return asked.kind in UNSERVED_TYPES or asked.klass == ANY_CLASS

"""Whether a reply counts, and the record sets and denials of a reply."""
import struct
from dataclasses import dataclass, replace

from .messages import (CNAME, LONGEST_MESSAGE, NS, SOA, Unreadable, first_question, is_under, key,
                       read_header, read_message)

STRANGER, TRUNCATED, FAILED, MALFORMED, LAME, WHOLE = (
    "stranger", "truncated", "failed", "malformed", "lame", "whole")
SET, NO_DATA, NAME_ERROR = "set", "no data", "name error"
ELSEWHERE = "elsewhere"

NOERROR, NXDOMAIN = 0, 3
MOST_ALIASES = 8
LONGEST_LIFETIME = 604_800  # seconds: a week, as RFC 8767 4 advises
LONGEST_DENIAL = 10_800  # seconds: RFC 2308 5 advises one to three hours


@dataclass(frozen=True)
class Piece:
    """A record set, or a denial with its SOA record, if any: kept and answered as a whole.

    A name error denies all types, so its `kind` is None. The lifetime is in seconds.
    """
    form: str
    owner: tuple
    kind: int | None
    class_: int
    rows: tuple
    soa: object
    lifetime: int
    rank: int = 1

    def slot(self):
        """The key of at most one kept piece: a set and a NODATA answer of a type share the key."""
        return key(self.owner), self.kind, self.class_

    def target(self):
        """The target of an alias."""
        return self.rows[0][0]


def judge(ask, peer, octets):
    """The first verdict that holds of a reply.

    A stranger, for which nothing happens, does not come from the server asked, answers no query, or
    has not the identifier and the question asked (RFC 5452 9.1). Otherwise a reply is truncated
    (TC, RFC 2181 9), failed with an RCODE besides NOERROR and NXDOMAIN (RFC 1035 4.1.1), malformed
    or whole.
    """
    if not 12 <= len(octets) <= LONGEST_MESSAGE:
        return STRANGER
    header = read_header(octets)
    if not header.qr or header.opcode != 0 or header.id != ask.id or peer != ask.peer:
        return STRANGER
    try:
        if not first_question(octets).same(ask.question):
            return STRANGER
    except Unreadable:
        return STRANGER
    if header.tc:
        return TRUNCATED
    if header.rcode not in (NOERROR, NXDOMAIN):
        return FAILED
    try:
        read_message(octets)
    except Unreadable:
        return MALFORMED
    return WHOLE


def seconds(ttl):
    """A TTL with its top bit set counts as 0 (RFC 2181 8)."""
    return 0 if ttl >= 2**31 else ttl


def record_set(section, name, kind, class_):
    """The records of a section with this name, type and class, as a piece; None without any.

    The records keep their order; of equal data only the first counts (RFC 2181 5). The owner is
    spelled as in the first. The lifetime is the lowest TTL, also of left out ones (RFC 2181 5.2).
    """
    found = [record for record in section
             if (key(record.owner), record.kind, record.class_) == (key(name), kind, class_)]
    if not found:
        return None
    rows = tuple(dict.fromkeys(record.data for record in found))
    lifetime = min(LONGEST_LIFETIME, *(seconds(record.ttl) for record in found))
    return Piece(SET, found[0].owner, kind, class_, rows, None, lifetime)


def denial(message, form, name, kind, class_):
    """A denial at a name, with the first SOA record of the authority section at or above the name.

    The lifetime is the lower of that record's TTL and MINIMUM, at most three hours; without such a
    record the lifetime is 0, and nothing is kept (RFC 2308 3, 5).
    """
    fitting = [record for record in message.authority if record.kind == SOA
               and record.class_ == class_ and is_under(name, record.owner)]
    if not fitting:
        return Piece(form, name, kind, class_, (), None, 0)
    minimum = struct.unpack("!I", fitting[0].data[2][-4:])[0]
    lifetime = min(seconds(fitting[0].ttl), minimum, LONGEST_DENIAL)
    return Piece(form, name, kind, class_, (), fitting[0], lifetime)


def walk(message, question, route, configuration):
    """The pieces from the question to the end of its aliases: pieces, end, last name.

    The answer section is followed from name to name (RFC 1034 3.6.2), over at most eight aliases,
    as long as the names are on the route asked: of further names the server is not believed. The
    RCODE is of the last name (RFC 2308 2.1, 2.2). A name has one CNAME record at most (RFC
    2181 10.1): with more, and without the set asked for, the whole reply is lame.
    """
    name, kind, class_, aliases = question.name, question.kind, question.class_, []
    while True:
        if len(aliases) == MOST_ALIASES or configuration.route_of(name) != route:
            return aliases, ELSEWHERE, name
        found = record_set(message.answers, name, kind, class_)
        alias = record_set(message.answers, name, CNAME, class_)
        if several(alias) and (kind == CNAME or not found):
            return [], LAME, name
        if found:
            return [*aliases, found], SET, name
        if not alias:
            return end_of_walk(message, aliases, name, kind, class_)
        aliases.append(alias)
        name = alias.target()


def several(alias):
    """Whether a name has several CNAME records; a target's letter case counts."""
    return alias is not None and len(alias.rows) > 1


def end_of_walk(message, aliases, name, kind, class_):
    """The end at a name without records in the answer section.

    NXDOMAIN denies the name, with an SOA record or without. Otherwise an SOA record says that the
    name has no such type. Without SOA record, a name after aliases is asked for on its own; and a
    reply about the name asked is lame, a referral, with NS records and AA clear. All further
    replies say that the name has no such type, too (RFC 2308 2.2).
    """
    if message.header.rcode == NXDOMAIN:
        piece = denial(message, NAME_ERROR, name, None, class_)
        return [*aliases, piece], NAME_ERROR, name
    piece = denial(message, NO_DATA, name, kind, class_)
    if not piece.soa and aliases:
        return aliases, ELSEWHERE, name
    if not piece.soa and not message.header.aa and NS in [each.kind for each in message.authority]:
        return [], LAME, name
    return [*aliases, piece], NO_DATA, name


def authority_sets(message, question, pieces, route, configuration):
    """The NS sets of the authority section, carried too if AA is set.

    Their owners are at or above the name asked and on its route, and have no other piece.
    """
    taken, sets = [key(piece.owner) for piece in pieces], []
    for record in message.authority if message.header.aa else []:
        fits = record.kind == NS and record.class_ == question.class_
        if (fits and is_under(question.name, record.owner) and key(record.owner) not in taken
                and configuration.route_of(record.owner) == route):
            taken.append(key(record.owner))
            sets.append(record_set(message.authority, record.owner, NS, record.class_))
    return sets


def carried(message, question, route, configuration):
    """The pieces of the walk, its end and last name, and the NS sets, each piece with its rank.

    Data at the name asked, from a reply with AA set, is trusted most: rank 3. The NS sets have rank
    2, and all data after aliases, or with AA clear, has rank 1 (RFC 2181 5.4.1).
    """
    pieces, end, name = walk(message, question, route, configuration)
    sets = authority_sets(message, question, pieces, route, configuration)
    own = [replace(piece, rank=3) if message.header.aa and key(piece.owner) == key(question.name)
           else piece for piece in pieces]
    return own, end, name, [replace(piece, rank=2) for piece in sets]

"""Record sets, and the times of each in its zone."""
import math
from collections import defaultdict
from typing import NamedTuple

import dns.rdata

KINDS = {"A": 1, "NS": 2, "CNAME": 5, "SOA": 6, "PTR": 12, "MX": 15, "TXT": 16, "AAAA": 28,
         "SRV": 33, "HTTPS": 65}
NUMBERS = {number: kind for kind, number in KINDS.items()}
NEGATIVE = 300  # seconds for which a denial may be kept: the SOA's TTL and its minimum
SOA = "ns.{zone}. hostmaster.{zone}. 1 3600 600 86400 " + str(NEGATIVE)


class RecordSet(NamedTuple):
    """All records of a name and type: the TTL in seconds, data as in a master file."""

    owner: str
    kind: str
    ttl: int
    data: tuple

    def lines(self):
        return [f"{self.owner}. {self.ttl} IN {self.kind} {data}\n" for data in self.data]

    def octets(self):
        """The data of each record in octets, names in full and in small letters."""
        return [dns.rdata.from_text("IN", self.kind, each).to_digestable() for each in self.data]


def apex(zone, servers):
    """The sets of each zone at its beginning."""
    return [RecordSet(zone, "SOA", NEGATIVE, (SOA.format(zone=zone),)),
            RecordSet(zone, "NS", 3600, (f"ns.{zone}.",)),
            RecordSet(f"ns.{zone}", "A", 3600, tuple(servers))]


class Version:
    """The set of a name and type, `held`, or None for nothing: the first and the last moment at
    which a server of the zone may have that."""

    __slots__ = ("held", "octets", "began", "ended")

    def __init__(self, held, began):
        self.held, self.began, self.ended = held, began, math.inf
        self.octets = frozenset(held.octets()) if held else None


def overlaps(spans, others):
    """The spans of time that are in both lists."""
    pairs = [(max(a, c), min(b, d)) for a, b in spans for c, d in others]
    return [(since, until) for since, until in pairs if since <= until]


class History:
    """The sets of the zones, each with its times in seconds of the office."""

    def __init__(self):
        self.versions, self.below = defaultdict(list), defaultdict(set)

    def begin(self, owner, kind, held, moment=-math.inf):
        """A set begins, or the old one ends. Returns the ended version, if any."""
        versions = self.versions[owner, kind]
        if not versions:
            self.note_name(owner, kind)
            if moment > -math.inf:
                versions.append(Version(None, -math.inf))
        versions.append(Version(held, moment))
        return versions[-2] if len(versions) > 1 else None

    def note_name(self, owner, kind):
        labels = owner.split(".")
        for place in range(len(labels)):
            self.below[".".join(labels[place:])].add((owner, kind))

    def had(self, owner, kind, octets, since, until):
        """The versions of a set with this data that a server may have had between two moments."""
        return [each for each in self.versions.get((owner, kind), ())
                if each.octets == octets and each.began <= until and each.ended >= since]

    def lacked(self, owner, kind, since, until):
        """Whether a server may have had no such set at some moment between two."""
        versions = self.versions.get((owner, kind))
        return not versions or any(not each.held and each.began <= until and each.ended >= since
                                   for each in versions)

    def lacked_name(self, name, since, until):
        """Whether a server may have had nothing at or below a name, at some moment between two."""
        spans = [(since, until)]
        for key in self.below.get(name, ()):
            lacks = [(each.began, each.ended) for each in self.versions[key] if not each.held]
            spans = overlaps(spans, lacks)
        return bool(spans)

    def had_name(self, name, since, until):
        """Whether a server may have had something at or below a name between two moments."""
        return any(each.held and each.began <= until and each.ended >= since
                   for key in self.below.get(name, ()) for each in self.versions[key])

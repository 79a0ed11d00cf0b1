"""The generated office: the content of its zones at the beginning, and the changes day by day, all
by a seed."""
import random
from typing import NamedTuple

from soak_parts.clock import DAY, HOUR
from soak_parts.zones import RecordSet, apex

FORWARDER, HARNESS = "10.0.0.53", "10.0.0.99"
OUTSIDE, INSIDE = ("192.0.2.1", "192.0.2.2"), ("10.0.0.10", "10.0.0.11")
LARGE = ("192.0.2.3", "192.0.2.1")
COM, CDN, CORP, REVERSE, BIG = "com", "cdn.net", "corp.example", "10.in-addr.arpa", "big.example"
# The zones of each server, in the forwarder's order.
SERVED = {OUTSIDE[0]: (COM, CDN, BIG), OUTSIDE[1]: (COM, CDN),
          **dict.fromkeys(INSIDE, (CORP, REVERSE)), LARGE[0]: (BIG,)}
ROUTES = {".": OUTSIDE, CORP: INSIDE, REVERSE: INSIDE, BIG: LARGE}
DENIED = "lan"
SITES, NETWORKS, PRINTERS, TEXTS = 1500, 60, 40, 20
LIFETIMES = (60, 300, 300, 900, 3600, 3600, 14_400, 86_400)  # seconds
STALE = HOUR  # seconds for which expired sets may be answered
LEASE, MOVING, SHORT = 1200, 300, 30  # lifetimes of machines, of moving aliases, of a CDN's names


class Change(NamedTuple):
    """The new set of a name and type, or None for nothing."""

    at: float
    zone: str
    owner: str
    kind: str
    held: object


def is_working(day):
    return day % 7 < 5


def spread(chance, middle, width):
    """A time of the day, in seconds, near the middle."""
    return min(DAY - 1, max(0, chance.gauss(middle, width / 2)))


class Office:
    """The office of a seed with some clients, and the first sets of its zones."""

    def __init__(self, seed, clients):
        self.seed, self.clients = seed, clients
        self.zones = {zone: [] for zone in (COM, CDN, CORP, REVERSE, BIG)}
        for zone in self.zones:
            servers = sorted(server for server, zones in SERVED.items() if zone in zones)
            self.zones[zone] += apex(zone, servers)
        chance = self.chance("zones")
        self.make_outside(chance)
        self.make_inside(chance)
        self.make_large(chance)

    def chance(self, *what):
        """Random numbers for a purpose."""
        return random.Random(" ".join(map(str, (self.seed, self.clients, *what))))

    def add(self, zone, owner, kind, ttl, *data):
        self.zones[zone].append(RecordSet(owner, kind, ttl, data))

    def make_outside(self, chance):
        """Sites with an address or an alias into a network of servers, some with more."""
        self.lives = [chance.choice(LIFETIMES) for _ in range(SITES)]
        self.aliased = [chance.random() < 0.4 for _ in range(SITES)]
        for n, ttl in enumerate(self.lives):
            self.add(COM, f"site{n}.com", "A", ttl, *addresses(chance))
            if self.aliased[n]:
                self.add(COM, f"www.site{n}.com", "CNAME", ttl, f"e{n % NETWORKS}.cdn.net.")
            else:
                self.add(COM, f"www.site{n}.com", "A", ttl, *addresses(chance))
                if chance.random() < 0.5:
                    self.add(COM, f"www.site{n}.com", "AAAA", ttl, f"2001:db8::{n:x}")
            self.add(COM, f"site{n}.com", "MX", ttl, f"10 mail.site{n}.com.", "20 mail.site0.com.")
            self.add(COM, f"mail.site{n}.com", "A", ttl, *addresses(chance))
        for n in range(NETWORKS):
            self.add(CDN, f"e{n}.cdn.net", "CNAME", HOUR, f"e{n}.pool.cdn.net.")
            self.add(CDN, f"e{n}.pool.cdn.net", "A", SHORT, *addresses(chance, 4))

    def make_inside(self, chance):
        """Services, and printers with names for addresses. Machines come in the morning."""
        for n in (1, 2):
            self.add(CORP, f"web{n}.corp.example", "A", HOUR, f"10.0.0.{20 + n}")
        self.add(CORP, "intranet.corp.example", "CNAME", MOVING, "web1.corp.example.")
        self.add(CORP, "files.corp.example", "A", HOUR, "10.0.0.30")
        self.add(CORP, "mail.corp.example", "A", HOUR, "10.0.0.31")
        self.add(CORP, "corp.example", "MX", HOUR, "10 mail.corp.example.")
        self.add(CORP, "corp.example", "TXT", HOUR, '"v=spf1 mx -all"')
        ldap = "0 5 389 files.corp.example.", "1 5 389 mail.corp.example."
        self.add(CORP, "_ldap._tcp.corp.example", "SRV", 600, *ldap)
        for n in range(PRINTERS):
            self.add(CORP, f"printer{n}.corp.example", "A", 4 * HOUR, f"10.0.2.{n}")
            owner, target = f"{n}.2.0.10.in-addr.arpa", f"printer{n}.corp.example."
            self.add(REVERSE, owner, "PTR", 4 * HOUR, target)

    def make_large(self, chance):
        """Sets past a datagram of 512 octets, up to 4 KiB."""
        for n in range(TEXTS):
            strings = [f'"{chr(97 + k) * 250}"' for k in range(2 + chance.randrange(15))]
            several = [f"10.{n}.{k}.{chance.randrange(250)}" for k in range(30 + 10 * n)]
            self.add(BIG, f"text{n}.big.example", "TXT", 900, " ".join(strings))
            self.add(BIG, f"all{n}.big.example", "A", 600, *several)

    def changes(self, day):
        """All changes of a day, in their order."""
        chance = self.chance("changes", day)
        found = [*self.networks(day, chance), *self.sites(day, chance), *self.aliases(day, chance)]
        found += self.machines(day, chance) if is_working(day) else []
        today = [each for each in found if each.at < (day + 1) * DAY]
        return sorted(today, key=lambda each: each.at)

    def networks(self, day, chance):
        """A third of the networks change addresses now and then."""
        for n in range(0, NETWORKS, 3):
            at = day * DAY + chance.uniform(0, HOUR)
            while at < (day + 1) * DAY:
                name = f"e{n}.pool.cdn.net"
                yield Change(at, CDN, name, "A", RecordSet(name, "A", SHORT, addresses(chance, 4)))
                at += chance.uniform(HOUR / 2, 2 * HOUR)

    def sites(self, day, chance):
        """Sites move, vanish for hours, or become an alias for some hours: a site has at most one
        such change a day."""
        chosen = chance.sample(range(SITES), 50)
        for n in chosen[:30]:
            name = f"site{n}.com"
            yield Change(day * DAY + chance.uniform(0, DAY), COM, name, "A",
                         RecordSet(name, "A", self.lives[n], addresses(chance)))
        for n in chosen[30:40]:
            name, at = f"mail.site{n}.com", day * DAY + chance.uniform(0, DAY / 2)
            yield Change(at, COM, name, "A", None)
            yield Change(at + chance.uniform(HOUR, DAY / 2), COM, name, "A",
                         RecordSet(name, "A", self.lives[n], addresses(chance)))
        for n in chosen[40:]:
            if not self.aliased[n]:
                continue
            name, at = f"www.site{n}.com", day * DAY + chance.uniform(0, DAY / 2)
            alias = RecordSet(name, "CNAME", self.lives[n], (f"e{n % NETWORKS}.cdn.net.",))
            back = at + chance.uniform(HOUR, DAY / 2)
            yield Change(at, COM, name, "CNAME", None)
            yield Change(at, COM, name, "A", RecordSet(name, "A", self.lives[n], addresses(chance)))
            yield Change(back, COM, name, "A", None)
            yield Change(back, COM, name, "CNAME", alias)

    def aliases(self, day, chance):
        """The intranet moves between two machines."""
        for turn in range(3):
            at = day * DAY + chance.uniform(turn * 8 * HOUR, (turn + 1) * 8 * HOUR)
            name, target = "intranet.corp.example", f"web{1 + (day + turn) % 2}.corp.example."
            yield Change(at, CORP, name, "CNAME", RecordSet(name, "CNAME", MOVING, (target,)))

    def machines(self, day, chance):
        """Each client has an address from arrival to leaving; a few get a second at noon."""
        for n, (comes, goes) in enumerate(self.presences(day)):
            name = f"pc{n}.corp.example"
            yield self.lease(day, comes, name, chance)
            if chance.random() < 0.1:
                yield self.lease(day, (comes + goes) / 2, name, chance)
            yield Change(day * DAY + goes, CORP, name, "A", None)

    @staticmethod
    def lease(day, at, name, chance):
        address = f"10.1.{chance.randrange(8)}.{1 + chance.randrange(250)}"
        return Change(day * DAY + at, CORP, name, "A", RecordSet(name, "A", LEASE, (address,)))

    def presences(self, day):
        """When each client comes and goes on a working day, in seconds of the day."""
        chance = self.chance("presences", day)
        return [(spread(chance, 8.4 * HOUR, HOUR), spread(chance, 17.3 * HOUR, 1.5 * HOUR))
                for _ in range(self.clients)]


def addresses(chance, count=None):
    """Some addresses of the outside."""
    return tuple(sorted({f"198.51.{100 + chance.randrange(4)}.{1 + chance.randrange(250)}"
                         for _ in range(count or chance.randint(1, 3))}))

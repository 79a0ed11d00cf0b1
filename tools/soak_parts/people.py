"""The questions of the office's clients, day by day."""
from bisect import bisect
from itertools import accumulate
from typing import NamedTuple

from soak_parts.clock import DAY, HOUR
from soak_parts.office import DENIED, NETWORKS, PRINTERS, SITES, TEXTS, is_working

MACHINES = 12  # clients that never sleep: servers and printers
PAUSE = 2  # seconds within which a page asks for its names
LUNCH = 12 * HOUR, 13 * HOUR
POPULAR = list(accumulate(1 / (rank + 3) for rank in range(SITES)))


INSIDE = "intranet", "files", "mail", "printer", "pc", "pc", "ldap", "back"


def both(name):
    return [(name, "A"), (name, "AAAA")]


class Asked(NamedTuple):
    """A question: its time, client, name and type, and whether it goes over TCP."""

    at: float
    client: int
    name: str
    kind: str
    over_tcp: bool


class Day:
    """The questions of a day. `visits`: the visits of a client on a working day."""

    def __init__(self, office, number, visits):
        self.office, self.number, self.visits = office, number, visits
        self.chance = office.chance("people", number)

    def questions(self):
        """All questions, in their order."""
        found = []
        for client, (comes, goes) in enumerate(self.office.presences(self.number)):
            if client < MACHINES:
                self.visit(found, client, 0, DAY, 2 * self.visits)
            elif is_working(self.number):
                self.visit(found, client, comes, goes, self.visits)
            elif self.chance.random() < 0.03:
                self.visit(found, client, 10 * HOUR, 15 * HOUR, self.visits // 2)
        return sorted(found)

    def visit(self, found, client, comes, goes, visits):
        for _ in range(visits):
            at = self.chance.uniform(comes, goes)
            if LUNCH[0] < at < LUNCH[1] and client >= MACHINES and self.chance.random() < 0.7:
                continue
            for name, kind in self.looked_at(client):
                over_tcp = self.chance.random() < 0.01
                moment = self.number * DAY + at + self.chance.uniform(0, PAUSE)
                found.append(Asked(moment, client, self.spelled(name), kind, over_tcp))

    def looked_at(self, client):
        """The names and types of a visit."""
        draw = self.chance.random()
        if draw < 0.6:
            return self.page()
        if draw < 0.8:
            return self.inside(client)
        return self.seldom(draw)

    def site(self):
        return bisect(POPULAR, self.chance.random() * POPULAR[-1])

    def page(self):
        """A page of a site, with its parts from networks of servers."""
        name = f"www.site{self.site()}.com"
        found = both(name) + ([(name, "HTTPS")] if self.chance.random() < 0.3 else [])
        for _ in range(self.chance.randrange(4)):
            found += both(f"e{self.chance.randrange(NETWORKS)}.cdn.net")
        return found

    def inside(self, client):
        """Services and machines of the office."""
        printer = self.chance.randrange(PRINTERS)
        ask = self.chance.choice(INSIDE)
        machine = f"pc{self.chance.randrange(self.office.clients)}"
        named = {"printer": f"printer{printer}", "pc": machine}
        if ask == "ldap":
            domain = "corp.example"
            return [(f"_ldap._tcp.{domain}", "SRV"), (domain, "MX"), (domain, "TXT")]
        if ask == "back":
            return [(f"{printer}.2.0.10.in-addr.arpa", "PTR")]
        return both(named.get(ask, ask) + ".corp.example")

    def seldom(self, draw):
        """Mail, names that are mistyped, completed by a search list or denied, and large sets."""
        n = self.site()
        if draw < 0.88:
            return [(f"site{n}.com", "MX"), (f"mail.site{n}.com", "A"), (f"site{n}.com", "A")]
        if draw < 0.91:
            mistyped = f"ww.site{n}.com"
            return [(mistyped, "A"), (f"a.{mistyped}", "A"), (f"_dmarc.site{n}.com", "TXT")]
        if draw < 0.94:
            return both(f"www.site{n}.com.corp.example")
        if draw < 0.96:
            return [(f"wpad.{DENIED}", "A"), (f"host{n}.{DENIED}", "AAAA")]
        large = self.chance.randrange(TEXTS)
        return [(f"text{large}.big.example", "TXT"), (f"all{large}.big.example", "A")]

    def spelled(self, name):
        """A name; a few clients write letters in random case."""
        if self.chance.random() >= 0.02:
            return name
        return "".join(self.chance.choice((letter.lower(), letter.upper())) for letter in name)

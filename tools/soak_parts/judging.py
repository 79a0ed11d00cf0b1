"""The truth of each answer: the content of the zones when their servers can have been asked."""
import math
from collections import Counter

from reading.messages import CNAME, SOA, Unreadable, first_question, read_message
from repository.packing import name as name_octets
from soak_parts.clock import shown
from soak_parts.office import DENIED, ROUTES, SERVED, STALE
from soak_parts.zones import NEGATIVE, NUMBERS, overlaps

NOERROR, SERVFAIL, NXDOMAIN = 0, 2, 3
FAILED, EXPIRED = "failed though a server was there", "expired though a server was there"
UNDUE = FAILED, EXPIRED
MOST_ALIASES, AGED = 8, 30  # the seconds of a set that has expired
SLACK = 1.5  # seconds of the office, for whole seconds of lifetimes
LATE = 0.02  # seconds of the system by which a program of the office may be late


class Wrong(Exception):
    """An answer that can't be true; why."""


def text_of(name):
    return b".".join(name).decode("ascii").lower()


def octets_of(record):
    """The data of a record in octets, names in full and in small letters."""
    return b"".join(part if isinstance(part, bytes) else name_octets(text_of(part))
                    for part in record.data)


def is_under(name, suffix):
    return name == suffix or name.endswith("." + suffix)


def zone_of(name):
    """The longest zone of a name, or None."""
    found = [zone for zones in SERVED.values() for zone in zones if is_under(name, zone)]
    return max(found, key=len, default=None)


def servers_of(name):
    """The servers of the name's route."""
    suffixes = [each for each in ROUTES if each != "." and is_under(name, each)]
    return ROUTES[max(suffixes, key=len, default=".")]


class Judge:
    """Judges exchanges by the findings of a run. `longest`: seconds that a question may take;
    `undue`: failures without a reason in the servers."""

    def __init__(self, found, longest):
        self.clock, self.history = found.clock, found.history
        self.failed, self.restarts = found.failed, found.restarts
        self.longest, self.slack = longest, SLACK + LATE * found.clock.speed
        self.counts, self.faults, self.undue = Counter(), [], []

    def judge(self, exchange):
        """Counts an exchange, and notes its faults."""
        asked, answered = self.clock.of(exchange.asked), self.clock.of(exchange.answered)
        question = first_question(exchange.question)
        what = f"{text_of(question.name)} {NUMBERS[question.kind]}"
        said = f"{shown(asked)} {what}, answered {answered - asked:.3f} s later"
        try:
            word = self.kind(exchange, asked, answered)
            self.counts[word] += 1
            self.undue += [said] if word in UNDUE else []
        except (Wrong, Unreadable) as fault:
            self.counts["wrong"] += 1
            self.faults.append(f"{said} with {exchange.answer.hex()}: {fault}")

    def kind(self, exchange, asked, answered):
        """A word for the outcome of a question."""
        question = first_question(exchange.question)
        if not exchange.answer:
            if overlaps([(asked - self.slack, answered)], self.restarts):
                return "lost at a restart"
            raise Wrong("no answer")
        is_of_it = exchange.answer[:2] == exchange.question[:2]
        if not is_of_it or first_question(exchange.answer) != question:
            raise Wrong("it is not of this question")
        message = read_message(exchange.answer)
        if not message.header.qr:
            raise Wrong("it is no answer")
        if message.header.tc:
            if exchange.over_tcp or message.answers:
                raise Wrong("it is cut")
            return "cut"
        return Walk(self, question, message, asked, answered).kind()

    def fails(self, name, since, until):
        """Whether all servers of the name's route failed at some moment between two."""
        spans = [(since, until)]
        for server in servers_of(name):
            spans = overlaps(spans, self.failed[server])
        return bool(spans)


class Walk:
    """The walk through an answer, from the question's name along aliases to the end."""

    def __init__(self, judge, question, message, asked, answered):
        self.judge, self.history = judge, judge.history
        self.question, self.message = question, message
        self.since, self.until = asked - judge.slack, answered + judge.slack
        self.name, self.kind_text = text_of(question.name), NUMBERS[question.kind]
        self.expired = None

    def kind(self):
        """A word for the answer."""
        code = self.message.header.rcode
        records = list(self.message.answers)
        if code == SERVFAIL:
            return self.failure()
        if code not in (NOERROR, NXDOMAIN):
            raise Wrong(f"result code {code}")
        for _ in range(MOST_ALIASES + 1):
            kind = CNAME if records and records[0].kind == CNAME else self.question.kind
            held = [record for record in records
                    if record.kind == kind and text_of(record.owner) == self.name]
            if not held:
                break
            if records[:len(held)] != held:
                raise Wrong(f"the records of {self.name} are not together")
            records = records[len(held):]
            self.see_set(NUMBERS[kind], held)
            if kind == self.question.kind:
                return self.ends(records, code)
            self.name = text_of(held[0].data[0])
        if records:
            raise Wrong(f"records of no name of the chain, at {self.name}")
        return self.denial(code)

    def ends(self, records, code):
        if records or code != NOERROR:
            raise Wrong("more than a set")
        return self.expired or "answered"

    def see_set(self, kind, held):
        """Servers of this set had the set when asked: by the seconds left."""
        octets, left = frozenset(octets_of(record) for record in held), held[0].ttl
        if any(record.ttl != left for record in held) or len(octets) != len(held):
            raise Wrong(f"the lifetimes of {self.name} differ, or records are there twice")
        known = self.history.had(self.name, kind, octets, -math.inf, math.inf)
        for version in known:
            age = version.held.ttl - left
            since = self.since - age - self.judge.longest
            if age >= 0 and self.overlaps(version, since, self.until - age):
                return
        for version in known:
            window = version.held.ttl + STALE + self.judge.longest
            if left == AGED and self.overlaps(version, self.since - window, self.until):
                since = self.since - self.judge.longest
                fails = self.judge.fails(self.name, since, self.until)
                self.expired = "expired" if fails else EXPIRED
                return
        raise Wrong(f"{self.name} {kind} with {left} s left was not so in its zone")

    @staticmethod
    def overlaps(version, since, until):
        return version.began <= until and version.ended >= since

    def failure(self):
        """SERVFAIL is right if all servers failed, of the name's route or of an alias's target."""
        if self.message.answers:
            raise Wrong("a failure with records")
        names = [self.name, *self.targets()]
        if any(self.judge.fails(name, self.since, self.until) for name in names):
            return "failed"
        return FAILED

    def targets(self):
        """The possible targets of aliases of the name."""
        left, found = [self.name], []
        while left:
            for version in self.history.versions.get((left.pop(), "CNAME"), ()):
                target = version.held.data[0].rstrip(".") if version.held else None
                if target and target not in found:
                    found.append(target)
                    left.append(target)
        return found

    def denial(self, code):
        """The name or its set was missing when the server can have denied it."""
        if is_under(self.name, DENIED):
            if code != NXDOMAIN or self.message.authority:
                raise Wrong("a denied name is answered otherwise")
            return "denied by the configuration"
        zone = zone_of(self.name)
        if zone is None:
            raise Wrong(f"a denial outside of all zones: {self.name}")
        since, until = self.moments(zone)
        if code == NXDOMAIN:
            if not self.history.lacked_name(self.name, since, until):
                raise Wrong(f"{self.name} was there")
            return "no such name"
        if not (self.history.lacked(self.name, self.kind_text, since, until)
                and self.history.lacked(self.name, "CNAME", since, until)):
            raise Wrong(f"{self.name} had {self.kind_text}")
        if not self.history.had_name(self.name, since, until):
            raise Wrong(f"{self.name} was not there at all")
        return "no such type"

    def moments(self, zone):
        """The first and last moment of the denial, by the seconds that its SOA record has left."""
        found = [record for record in self.message.authority if record.kind == SOA]
        if len(found) != 1 or text_of(found[0].owner) != zone or found[0].ttl > NEGATIVE:
            raise Wrong("a denial without the SOA record of its zone")
        age = NEGATIVE - found[0].ttl
        return self.since - age - self.judge.longest, self.until - age

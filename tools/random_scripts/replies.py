"""Random replies to a query: the wanted data, a part, something else, or nothing."""
from .octets import DATA, NAME, STRING, Writer, broken, other_case

TTLS = (0, 1, 30, 30, 300, 300, 300, 604_800, 604_801, 2**31 - 1, 2**31, 2**32 - 1)
LASTING, SHORT, MIXED = (300, 300, 600, 3600), (1, 1, 30, 300), (0, 1, 30, 30, 3600, 3600, 3600)
CNAME, SOA, NS, MX, SRV, NXDOMAIN = 5, 6, 2, 15, 33, 3


class Replies:
    """Makes replies from the names of a script; `calm` is how likely each part is as it should."""

    def __init__(self, random, pick, class_, calm, theme):
        self.random, self.pick, self.class_, self.calm = random, pick, class_, calm
        self.ttls = {"pressed": LASTING, "stale": SHORT, "aged": MIXED}.get(theme, TTLS)
        self.large, self.aged = theme == "large", theme == "aged"

    def odd(self, chance):
        return self.random.random() < chance * (1 - self.calm)

    def ttl(self):
        return self.random.choice(self.ttls)

    def data(self, kind):
        """Data of a type: random octets, strings and names."""
        parts = DATA.get(kind) or (self.random.randrange(1, 9),)
        if self.odd(0.02):
            parts = self.random.choice(list(DATA.values()))
        return tuple(self.part(part) for part in parts)

    def part(self, part):
        """One part; of its octets most are equal from record to record."""
        if part == NAME:
            return self.pick()
        count = part
        if part == STRING:
            long = 255 if self.aged or self.odd(0.3) else 2
            count = self.random.choice((0, 1, 1, 3, long))
        octets = bytes(count - 1) + bytes([self.random.randrange(6)]) if count else b""
        return bytes([count]) + octets if part == STRING else octets

    def rows(self, owner, kind):
        """The records of a set: one, some of them twice, or a great many."""
        count = self.random.choice((1, 1, 1, 1, 2, 3, 5))
        if self.random.random() < 0.05:
            count = self.random.choice((10, 20, 40, 255, 256, 300))
        if self.large:
            count = self.random.choice((3, 255, 256, 300))
        if kind == CNAME and not self.odd(0.2):
            count = 1
        rows = [[owner, kind, self.class_, self.ttl(), self.data(kind)] for _ in range(count)]
        if count >= 255 and kind in (MX, SRV):
            self.enlarge(rows, kind)
        elif self.random.random() < 0.1:
            rows.append([*rows[0][:3], self.ttl(), rows[0][4]])
        if self.random.random() < 0.1:
            rows[-1][0] = other_case(self.random, owner)
        return rows

    def enlarge(self, rows, kind):
        """Gives many records one long name, or new names with many labels, each of them twice."""
        longest = max((self.pick() for _ in range(20)), key=lambda name: len(b".".join(name)))
        labels = (b"l",) * self.random.choice((58, 59, 60, 61))
        for at, row in enumerate(rows):
            new = (b"m%d" % (at // 2), *labels, b"k%d" % (at // 2), *longest[-1:])
            row[4] = (at.to_bytes(6, "big"), longest)
            if kind == MX:
                row[4] = (at.to_bytes(2, "big"), new)

    def soa(self, name):
        """An SOA record, most often at or above the name, with a MINIMUM of its own."""
        owner = name[self.random.randrange(len(name) + 1):]
        if self.odd(0.25):
            owner = self.random.choice((self.pick(), (b"not", *name)))
        minimum = self.random.choice((0, 1, 30, 300, 10_800, 10_801, 2**31, 2**32 - 1)
                                     if self.ttls is TTLS else self.ttls)
        class_ = 4 if self.odd(0.05) else self.class_
        return [owner, SOA, class_, self.ttl(), (self.pick(), self.pick(),
                                                 bytes(16) + minimum.to_bytes(4, "big"))]

    def aliases(self, name, count):
        """A chain of so many CNAME records and the name after it; at times one has a second."""
        records = []
        for at in range(count):
            target = self.pick() if count < 4 or at % 4 == 3 else (b"n%d" % at, *name[-1:])
            records.append([name, CNAME, self.class_, self.ttl(), (target,)])
            if self.random.random() < 0.06:
                second = self.random.choice((target, other_case(self.random, target), self.pick()))
                records.append([name, CNAME, self.class_, self.ttl(), (second,)])
            name = target
        return records, name

    def sections(self, question):
        """The answer and authority sections, and the RCODE."""
        many = (0,) * 10 + (1, 1, 1, 1, 2, 2, 3, 4, 7, 8, 9)
        count = self.random.choice((0, 0, 1, 1, 2) if self.aged else many)
        count = min(count, 1) if self.large else count
        answers, name = self.aliases(question.name, count)
        ends = {"set": 16, "no data": 6, "name error": 10 if self.aged else 6, "nothing": 4,
                "both": 2, "referral": 2, "loop": 1}
        end = self.random.choices(list(ends), list(ends.values()))[0]
        if end in ("set", "both"):
            answers += self.rows(name, question.kind)
        if end == "loop":
            answers.append([name, CNAME, self.class_, self.ttl(), (question.name,)])
        authority = []
        if end in ("no data", "name error", "both") and not self.odd(0.2):
            authority = [self.soa(name) for _ in range(self.random.choice((1, 1, 1, 2)))]
        if end == "referral" or self.random.random() < 0.2:
            owner = question.name[self.random.randrange(len(question.name) + 1):]
            authority += self.rows(self.pick() if self.odd(0.3) else owner, NS)
        if self.odd(0.1):
            answers += self.rows(self.pick(), self.random.choice(list(DATA)))
        for records in (answers, authority):
            if self.odd(0.2):
                self.random.shuffle(records)
            if records and self.odd(0.05):
                self.random.choice(records)[2] = self.random.choice((1, 3, 255, 257))
        return answers, authority, NXDOMAIN if end == "name error" or self.odd(0.05) else 0

    def flags(self, rcode):
        """QR, most often RD and RA, AA or not; at times a failure, TC or another opcode."""
        flags = 0x8000 | (0x0400 if self.random.random() < 0.7 else 0)
        flags |= 0 if self.odd(0.2) else 0x0100
        flags |= 0 if self.odd(0.2) else 0x0080
        flags |= self.random.randrange(8) << 4 if self.odd(0.1) else 0
        flags |= 0x0200 if self.odd(0.15) else 0
        flags ^= 0x8000 if self.odd(0.03) else 0
        flags |= self.random.randrange(16) << 11 if self.odd(0.03) else 0
        return flags | (self.random.randrange(16) if self.odd(0.3) else rcode)

    def reply(self, number, question):
        """The octets of a reply with this identifier to this question."""
        answers, authority, rcode = self.sections(question)
        extra = self.rows(self.pick(), 1) if self.random.random() < 0.1 else []
        counts = [1, len(answers), len(authority), len(extra)]
        if self.odd(0.06):
            counts[self.random.randrange(4)] = self.random.choice((0, 1, 2, 3, 65_535))
        writer = Writer(self.random)
        writer.pointers = 1 if self.large else writer.pointers
        writer.header(number, self.flags(rcode), counts)
        writer.question(question.name, question.kind, question.class_)
        for record in (*answers, *authority, *extra):
            writer.record(*record)
        octets = bytes(writer.out)
        return broken(self.random, octets) if self.odd(0.12) else octets

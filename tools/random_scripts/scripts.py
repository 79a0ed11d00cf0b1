"""Random scripts, made next to a forwarder that reads along: so the open queries are known, and the
due moments. Most replies match a query, and at most moments something ends."""
import dataclasses
import random as randomness

from reading import script
from reading.configuration import read_configuration
from reading.step import Forwarder

from . import configurations
from .configurations import ODD
from .octets import DATA, Writer, broken, other_case
from .replies import Replies

NOTHING = "0 failed udp 0"
CLIENTS = (*(f"udp 10.0.0.{last}:{port}" for last in (7, 8, 255) for port in (1, 40_000)),
           "tcp 7", "tcp 8", f"tcp {2**64 - 1}")
LABELS = (b"a", b"b", b"www", b"A", b"x-1", b"\x00.\xff")
# Labels that differ in one bit, as the cases of a letter do, and are none.
NO_LETTERS = ((b"\xc0", b"\xe0"), (b"\xde", b"\xfe"), (b"@", b"`"), (b"[", b"{"))
CLASSES = (0, 1, 3, 254, 255, 256, 257, 511, 65_535)
NOT_SERVED = (0, 41, 128, 249, 251, 252, 255)
THEMES = ("any", "pressed", "aged", "stale", "large")
ODD_NAMES = (
    b"\1\0\xc0\x0d", b"\xc0\x0c", b"\xc0\x00", b"\xc0\x02", b"\xc0", b"\x41a\0", b"\x80a\0",
    b"\1a" * 127 + b"\0", b"\1a" * 128 + b"\0",
    (b"\x3f" + b"a" * 63) * 3 + b"\x3e" + b"a" * 62 + b"\0")
BEYOND = (127, 256, 42)  # types next to those that are not served


class Maker:
    """Makes a script, line by line."""

    def __init__(self, seed):
        self.random = random = randomness.Random(seed)
        self.theme = random.choices(THEMES, (40, 15, 25, 17, 3))[0]
        is_quiet = self.theme in ("pressed", "aged", "large")
        self.calm = 0.97 if is_quiet else random.choice((0, 0.5, 0.5, 0.9))
        self.text, suffixes = configurations.configuration(random, self.theme)
        self.forwarder = Forwarder(read_configuration(self.text.encode()))
        self.now, self.lines = random.choice((0, 1000, 1000, 10**6)), []
        self.kinds = self.make_kinds()
        self.class_ = random.choice((1,) * 7 + (3, 2, 257))
        self.names = self.make_names(suffixes)
        self.replies = Replies(random, self.name, self.class_, self.calm, self.theme)

    def chance(self, chance):
        return self.random.random() < chance

    def make_kinds(self):
        """The asked types: often a single type, so that questions meet."""
        every = list(DATA)
        several = ([1, 5], [1, 2, 5, 6], self.random.sample(every, 3), every)
        kinds = self.random.choice(([1], [1], [1], [self.random.choice(every)], *several))
        large = [self.random.choice((15, 33))]
        few = {"large": large, "stale": self.random.choice(([1], [1], [1, 5, 15])),
               "aged": self.random.choice(([1], [16], [1, 2], [1, 16]))}
        return few.get(self.theme, kinds)

    def make_names(self, suffixes):
        """A few names, under some of the suffixes; at times a long one."""
        names, tops = [], [suffix.strip(".") for suffix in (*suffixes, "example", "example")]
        for _ in range(self.random.choice((3, 3, 4) if self.theme == "aged" else (3, 4, 5, 6, 8))):
            top = self.random.choice(tops)
            labels = [label.encode() for label in top.split(".")] if top else []
            for _ in range(self.random.choice((0, 1, 1, 1, 2))):
                labels.insert(0, self.random.choice(LABELS))
            names.append(tuple(labels))
        if self.chance(0.2):
            names += [(label, *names[0]) for label in self.random.choice(NO_LETTERS)]
        if self.chance(1 if self.theme == "large" else 0.15):
            labels = [b"l" * 63] * 3 + [b"m" * self.random.choice((51, 52, 53))]
            names.append((*labels, b"example"))
        if self.chance(0.05):
            names.append((b"a",) * self.random.choice((100, 126, 127)))
        return names

    def name(self):
        """A name of the script, or a name below; at times with something kept."""
        kept = self.forwarder.cache.entries
        kept = kept if self.chance(0.6 if self.theme == "aged" else 0.15) else []
        name = self.random.choice([entry.piece.owner for entry in kept] or self.names)
        below = (self.random.choice((b"a", b"b", b"c")), *name)
        return below if self.chance(0.1) and sum(len(label) + 1 for label in below) < 255 else name

    # Moments.

    def moments(self):
        """The moments at which something of the forwarder is due or ends."""
        forwarder = self.forwarder
        due = [ask.asked + forwarder.limits["ask_ms"] for ask in forwarder.asks]
        due += [each.taken + forwarder.limits["deadline_ms"] for each in forwarder.waiting]
        windows = (0,) if self.theme == "aged" else (0, forwarder.limits["stale_s"])
        ends = [kept.accepted + 1000 * (kept.piece.lifetime + window)
                for kept in forwarder.cache.entries for window in windows]
        return due, ends

    def move(self):
        """Time passes, most often to a moment at which something is due or ends, or next to it."""
        due, ends = self.moments()
        chance = self.random.random()
        if chance < {"pressed": 0.85, "large": 0.85, "aged": 0.8}.get(self.theme, 0.6):
            return
        if chance < 0.95 and (due or ends):
            near = due if due and (not ends or self.chance(0.5)) else ends
            self.now = max(self.now, self.random.choice(near) + self.random.choice((-1, 0, 0, 1)))
        elif chance < 0.97:
            self.now += self.random.choice((1, 20, 999, 1000, 5000, 10**6))
        elif chance < 0.98:
            self.now = self.random.choice((0, self.now // 2, self.now - 1 if self.now else 0))
        elif chance < 0.983:
            self.now = self.random.choice((2**62 - 1, 2**62, 2**62 + 5, 2**64 - 1))

    # Lines.

    def question(self):
        """A client's question: at times asked already, or kept."""
        waiting, entries = self.forwarder.waiting, self.forwarder.cache.entries
        if waiting and self.chance(0.15):
            one = self.random.choice(waiting)
            question = self.random.choice((one.wanted, one.request.question))
            name, kind, class_ = question.name, question.kind, question.class_
        elif entries and self.chance({"aged": 0.5, "stale": 0.7}.get(self.theme, 0.35)):
            piece = self.random.choice(entries).piece
            name, class_ = piece.owner, piece.class_
            kind = self.random.choice((piece.kind or 1, *self.kinds))
        else:
            name, kind, class_ = self.name(), self.random.choice(self.kinds), self.class_
        if self.chance(0.03):
            kind = self.random.choice((*NOT_SERVED, *BEYOND))
        if self.chance(0.02):
            class_ = self.random.choice((*CLASSES, *[self.class_ ^ 256] * 4))
        return other_case(self.random, name) if self.chance(0.05) else name, kind, class_

    def client(self, question=None):
        """A client's message, at times with flags, counts or octets that a query does not have."""
        odd, clients = self.chance(0.15 * (1.1 - self.calm)), CLIENTS
        if self.theme == "large" and self.chance(0.6):
            clients = CLIENTS[-3:]
        flags = 0x0100 if self.chance(0.88) else 0
        counts, after = [1, 0, 0, 0], b""
        if odd or self.chance(0.06):
            bits = (0, 0x0400, 0x0200, 0x0080, 0x0070, self.random.randrange(16))
            flags |= self.random.choice(bits)
        if odd and self.chance(0.3):
            flags |= self.random.choice((0x8000, self.random.randrange(16) << 11))
        if odd and self.chance(0.2):
            counts[0] = self.random.choice((0, 2, 65_535))
        if self.chance(0.05):
            counts[self.random.randrange(1, 4)] = self.random.choice((1, 2, 65_535))
            after = self.random.choice((b"", bytes.fromhex("00002904d0000000000000"), b"\xc0"))
        writer = Writer(self.random)
        writer.header(self.random.randrange(65_536), flags, counts)
        writer.question(*question or self.question())
        octets = bytes(writer.out) + after
        if odd and self.chance(0.4):
            octets = broken(self.random, octets)
        elif odd and self.chance(0.01):
            octets += bytes(65_535 + self.random.randrange(2) - len(octets))
        elif self.chance(0.01):
            octets = octets[:12] + self.random.choice(ODD_NAMES) + b"\0\1\0\1"
        return f"{self.now} client {self.random.choice(clients)} {octets.hex() or '-'}"

    def reply(self, ask=None):
        """A reply to an open query, at times with a forged part."""
        ask = ask or self.random.choice(self.forwarder.asks)
        path, number, peer, question = list(ask.path), ask.id, ask.peer, ask.question
        if self.chance(0.08 * (1.05 - self.calm)):
            forged = self.random.randrange(5)
            if forged == 0:
                number ^= 1 << self.random.randrange(16)
            elif forged == 1:
                paths = (["udp", 1024], ["tcp", path[1]], ["udp", path[1] % 65_536])
                path = self.random.choice(paths)
            elif forged == 2:
                peer = self.random.choice(("192.0.2.1:53", "192.0.2.2:53", "192.0.2.1:5353"))
            else:
                change = self.random.choice(({"name": self.name()}, {"kind": 28}, {"class_": 3}))
                question = dataclasses.replace(question, **change)
        octets = self.replies.reply(number, question)
        text = octets.hex().upper() if self.chance(0.05) else octets.hex()
        return f"{self.now} reply {path[0]} {path[1]} {peer} {text or '-'}"

    def failed(self):
        """A path that broke, most often that of an open query."""
        paths = [ask.path for ask in self.forwarder.asks] if self.chance(0.9) else []
        path = self.random.choice(paths or [("udp", 1032), ("tcp", 0)])
        return f"{self.now} failed {path[0]} {path[1]}"

    def line(self):
        due, _ = self.moments()
        is_due = any(moment <= max(self.now, self.forwarder.now) for moment in due)
        weights = {self.client: 35, self.failed: 2 * (1.2 - self.calm)}
        if self.forwarder.asks:
            weights[self.reply] = {"pressed": 70, "aged": 90, "stale": 30}.get(self.theme, 50)
            weights[self.reply] += 25 * len(self.forwarder.asks)
            weights[self.failed] = {"aged": 10, "stale": 25}.get(self.theme, 10 * (1.2 - self.calm))
        weights["tick"] = (35 if is_due else 3)
        weights["restart"] = 0.4
        chosen = self.random.choices(list(weights), list(weights.values()))[0]
        return f"{self.now} {chosen}" if isinstance(chosen, str) else chosen()

    def add(self, line):
        """Puts a line last, and lets the forwarder take its event."""
        self.lines.append(line)
        moment, event = script.event_of(line)
        self.forwarder.step(moment, script.words_of(len(self.lines)), *event)

    def press(self):
        """A new name is asked for and answered; then all that was kept, and each name. So what a
        full cache drops shows."""
        kept = [entry.piece for entry in self.forwarder.cache.entries]
        new = (b"n%d" % len(self.lines), b"example")
        self.add(self.client((new, self.kinds[0], self.class_)))
        if self.forwarder.asks:
            self.add(self.reply(self.forwarder.asks[-1]))
        asked = [(piece.owner, piece.kind or 1, piece.class_) for piece in kept]
        asked += [(name, self.random.choice(self.kinds), self.class_) for name in self.names]
        for question in asked:
            self.add(self.client(question))

    def make(self):
        """The octets of a script; a few have a fault in a line or in the configuration."""
        some = {"large": (12,), "aged": (40, 60)}.get(self.theme, (10, 20, 30, 40, 60))
        for _ in range(self.random.choice(some)):
            self.move()
            self.now = min(self.now, script.LAST_NUMBER)
            self.add(self.random.choice(ODD["odd_lines"]) if self.chance(0.002) else self.line())
            if self.theme == "aged" and self.chance(0.06):
                self.press()
        if self.chance(0.03):
            at = self.random.randrange(len(self.lines) + 1)
            self.lines.insert(at, self.random.choice(ODD["bad_lines"]))
        elif self.chance(0.001):
            self.lines = [NOTHING] * self.random.choice((8191, 8192, 8193))
        text = configurations.changed(self.random, self.text) if self.chance(0.06) else self.text
        body = "---\n" + "\n".join(self.lines) + ("\n" if self.chance(0.9) else "")
        if self.chance(0.003):
            body = self.random.choice(("---", "", "--- \n", "---\r\n", "---\n"))
        return (text + body).encode("latin-1")


def make(seed):
    return Maker(seed).make()

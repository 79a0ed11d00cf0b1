"""Scripts at the limits of a configuration and of messages, made without chance."""
import struct

from repository import packing
from repository.packing import A, CNAME, IN, NS, OF_QUESTION, SOA, name, question

OPAQUE = 65_280
SERVER = "192.0.2.1:53"
LONG = ".".join([*["a" * 63] * 3, "b" * 61])  # 255 octets with the last one
ALL = []


def script(function):
    ALL.append(function)
    return function


def record(kind, data, owner=OF_QUESTION, class_=IN):
    """A record for a day, of the question's name unless another owner is given."""
    return packing.record(owner, kind, 86_400, data, class_)


ADDRESS = record(A, bytes(4))


def route(suffix=".", servers=(SERVER,)):
    listed = ", ".join(f'"{each}"' for each in servers)
    return f'[[route]]\nsuffix = "{suffix}"\nservers = [{listed}]\n'


class Script:
    """A script, whose words are those of `replay`: so an ask's port and identifier are known."""

    def __init__(self, routes=(route(),), **limits):
        rows = "".join(f"{limit} = {value}\n" for limit, value in limits.items())
        self.text = f"version = 1\n{''.join(routes)}[limits]\n{rows}---\n"
        self.lines, self.now = [], 1000
        self.kinds = []  # of the lines of what `learn` and `find` did

    def add(self, event):
        """An event at the present moment; its number."""
        self.lines.append(f"{self.now} {event}\n")
        return len(self.lines)

    def ask(self, text, kind=A, class_=IN, client="udp 10.0.0.7:40000", flags=0x0100):
        octets = packing.message(7, flags, question(name(text), kind, class_))
        return self.add(f"client {client} {octets.hex()}")

    def reply(self, asked, text, *records, kind=A, class_=IN, flags=0x8500, authority=()):
        """The reply to the query of an event."""
        of = question(name(text), kind, class_)
        octets = packing.message(8 * asked % 65_536, flags, of, records, authority)
        return self.add(f"reply udp {port_of(asked)} {SERVER} {octets.hex()}")

    def learn(self, text, *records, **more):
        """A question that is not in the cache, and its reply."""
        asked = self.ask(text)
        told = self.reply(asked, text, *records, **more)
        self.kinds += [(asked, "ask-udp"), (told, "close-udp"), (told, "reply")]

    def find(self, text, kind):
        """A question that is answered from the cache."""
        self.kinds.append((self.ask(text, kind), "reply"))

    def octets(self):
        return (self.text + "".join(self.lines)).encode()


def port_of(asked):
    """The port of the query of an event."""
    return 1024 + 8 * asked % 64_512


def name_of(number, spelling=0):
    """A name, with the letters of its last label in one of 128 spellings."""
    last = (chr(ord(each) ^ (spelling >> at & 1) << 5) for at, each in enumerate("example"))
    return f"n{number}.{''.join(last)}"


@script
def full_lists():
    """4,096 questions wait for 1,024 queries, each in four spellings. One more fails; all others
    get their answers."""
    made = Script(questions=4096, inquiries=1024)
    asked = [made.ask(name_of(number)) for number in range(1024)]
    for spelling in (1, 2, 3):
        for number in range(1024):
            made.ask(name_of(number, spelling), client=f"udp 10.0.{spelling}.1:{1024 + number}")
    made.ask(name_of(0))
    for number, event in enumerate(asked):
        made.reply(event, name_of(number), ADDRESS)
    return made


@script
def full_queries():
    """With 1,024 queries open a further name fails, an equal question joins, and a place that gets
    free is used; then all queries fail in time."""
    made = Script(questions=4096, inquiries=1024)
    asked = [made.ask(name_of(number)) for number in range(1024)]
    made.ask(name_of(1024))
    made.ask(name_of(1023))
    made.reply(asked[500], name_of(500), ADDRESS)
    made.ask(name_of(1024))
    made.now += 1500
    for _ in range(1025):
        made.add("tick")
    return made


@script
def led_on_together():
    """501 questions in many spellings are led on by one reply, and answered by the next."""
    made = Script(questions=501)
    asked = [made.ask(name_of(1, number), client=f"udp 10.0.0.7:{1024 + number}")
             for number in range(501)]
    led_on = made.reply(asked[0], name_of(1), record(CNAME, name(name_of(2))))
    made.reply(led_on, name_of(2), ADDRESS)
    return made


@script
def large_replies():
    """4,095 records in a set, over TCP and cut over UDP; 65,000 octets in a record, and none; a
    reply of 65,535 octets, and one of 65,536."""
    made = Script()
    addresses = [record(A, struct.pack("!I", number), owner=b"\0") for number in range(4095)]
    asked = made.ask("", client="tcp 7")
    made.ask("", client="udp 10.0.0.7:1024")
    made.reply(asked, "", *addresses)
    made.ask("", client="tcp 8")
    most = 65_535 - 12 - 16 - 12  # without the header, the question and the record's front
    for kind, length in enumerate((65_000, 0, most, most + 1), OPAQUE):
        asked = made.ask(name_of(1), kind, client="tcp 9")
        made.reply(asked, name_of(1), record(kind, bytes(length)), kind=kind)
        made.ask(name_of(1), kind, client="udp 10.0.0.7:1024")
    return made


@script
def all_routes():
    """64 routes of eight servers: sixteen tries for each, round its servers."""
    servers = [[f"192.0.{number}.{last}:53" for last in range(1, 9)] for number in range(64)]
    routes = [route(f"r{number}.example", each) for number, each in enumerate(servers)]
    made = Script(routes, tries=16)
    for number in range(64):
        asked = made.ask(f"www.r{number}.example")
        for _ in range(16):
            asked = made.add(f"failed udp {port_of(asked)}")
    return made


@script
def long_names():
    """Names of 255 octets: a question, also with a pointer at its end, a suffix, the target of an
    alias, an SOA's names."""
    made, target = Script((route(), route(LONG))), name(LONG.swapcase())
    asked = made.ask(LONG)
    made.reply(asked, LONG, ADDRESS)
    made.ask(LONG)
    for text in (LONG, LONG.replace("b", "c")):
        # The pointer leads to a zero octet of the header, the root.
        octets = packing.message(7, 0x0100, question(name(text)[:-1] + b"\xc0\x06", A, IN))
        made.add(f"client tcp 7 {octets.hex()}")
    asked = made.ask(name_of(1))
    made.reply(asked, name_of(1), record(CNAME, target))
    soa = name(LONG) + target + struct.pack("!5I", 1, 2, 3, 4, 600)
    asked = made.ask(name_of(2))
    made.reply(asked, name_of(2), flags=0x8503, authority=(record(SOA, soa),))
    made.ask(f"below.{name_of(2)}")
    many = "l." * 127
    asked = made.ask(many)
    made.reply(asked, many, ADDRESS)
    made.ask(many)
    return made


@script
def kinds_and_classes():
    """The least and the greatest classes and types; each opcode."""
    made = Script()
    for class_ in (0, 2, 254, 256, 65_535):
        for kind in (1, 127, 256, 65_535):
            of = {"kind": kind, "class_": class_}
            asked = made.ask(name_of(1), **of)
            made.reply(asked, name_of(1), record(kind, b"abcd", class_=class_), **of)
            made.ask(name_of(1), **of, client="tcp 18446744073709551615")
    for opcode in range(16):
        made.ask(name_of(1), flags=opcode << 11)
    return made


@script
def late_moments():
    """Moments from 2^61 ms, past the last one that counts."""
    made = Script()
    for moment in (2**61, 2**62 - 1500, 2**62 - 1, 2**62, 2**62 + 1, 2**64 - 1):
        made.now = moment
        asked = made.ask(name_of(moment % 97))
        made.reply(asked, name_of(moment % 97), ADDRESS)
        made.ask(name_of(moment % 97))
        made.ask(name_of(98))
        made.add("tick")
    return made


@script
def full_cache():
    """65,536 entries, of replies with 128 sets each: all are there until one more comes, and then
    all but the one that was used last. The reading would take minutes, so kinds are compared."""
    made, kept, names = Script(cache=65_536), 0, []
    while kept < 65_536:
        # A name of 127 labels, whose suffixes are new but for the last label and the root.
        top, second = divmod(len(names), 120)
        names.append("l." * 125 + f"{chr(128 + second)}.{chr(128 + top)}")
        new = min(126 + (second == 0) + (len(names) == 1), 65_536 - kept)
        owners = [struct.pack("!H", 0xC000 | 12 + 2 * at) for at in range(1, 127)] + [b"\0"]
        sets = [record(NS, b"\0", owner=owner) for owner in owners]
        made.learn(names[-1], ADDRESS, authority=sets[:new - 1 if new < 126 else None])
        kept += new
    for at in (0, *range(1, 126, 5)):
        made.find(names[0][2 * at:], A if at == 0 else NS)
    made.learn(name_of(1), ADDRESS)
    for at in (1, 3, 4, 5):
        made.find(names[0][2 * at:], NS)
    made.find("", NS)
    made.kinds.append((made.ask(names[0][4:], NS), "ask-udp"))
    return made

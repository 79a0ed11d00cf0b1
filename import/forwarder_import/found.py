"""Content of the files: carried or left."""
import contextlib
from dataclasses import dataclass, field
from typing import NamedTuple

from .files import Line, Refused
from .names import key_of, port_of, suffix_of
from .rows import Row


class Limit(NamedTuple):
    """A value of `limits`: the least, the most, and the value without a line."""

    least: int
    most: int
    default: int


LIMITS = {  # in the order of the text
    "questions": Limit(1, 4096, 1024), "inquiries": Limit(1, 1024, 256),
    "cache": Limit(1, 65536, 4096), "tries": Limit(1, 16, 4), "ask_ms": Limit(100, 10000, 1500),
    "deadline_ms": Limit(500, 30000, 8000), "stale_s": Limit(0, 86400, 0)}


@dataclass
class Value:
    """A value with its lines, and a remark on a difference, if any."""

    text: str
    lines: list[Line]
    remark: str = ""


@dataclass
class Route:
    """A suffix with its lines in the files."""

    suffix: str
    named: list[Line] = field(default_factory=list)  # lines of the suffix alone
    servers: dict[str, Value] = field(default_factory=dict)
    denied: list[Line] = field(default_factory=list)
    remark: str = ""  # on the denial
    because: str = ""  # the words after 'is denied', if a line of another suffix denies
    standard: list[Line] = field(default_factory=list)  # lines in want of the servers of all names
    lost: list[tuple[Line, Refused]] = field(default_factory=list)  # servers nobody can ask

    def lines(self):
        """The lines of the suffix, each once."""
        of_servers = (line for server in self.servers.values() for line in server.lines)
        lost = (line for line, _ in self.lost)
        every = *self.denied, *self.named, *of_servers, *self.standard, *lost
        return list(dict.fromkeys(every))


@dataclass(frozen=True)
class Left:
    """A left line, or a file with something left, with advice or a reason."""

    line: Line
    what: str
    row: Row | None = None


@dataclass(frozen=True)
class LocalZone:
    """A zone, denied unless its names have a server; a remark for either case."""

    zone: str
    line: Line
    of_denial: str = ""
    of_server: str = ""


@dataclass(frozen=True)
class Many:
    """Denied routes of a line: the first, their count, and the network of the first."""

    suffix: str
    line: Line
    count: int
    network: str


class Found:
    """Gathers the findings of the readers."""

    def __init__(self, first):
        self.first = first  # the first file, as a line
        self.addresses = []  # of `listen`: address, port or None, line, remark
        self.port = None
        self.limits, self.routes = {}, {}
        self.local = []  # zones, denied unless their names have a server
        self.records = []  # names of own records, each list with its line and advice
        self.kept_dnsmasq, self.kept = None, []  # a reader's lines of DHCP, and the kept file
        self.many = []  # denied routes of a line with many
        self.left, self.needless = [], []
        self.placeholder = False  # whether the only route is there since there has to be a route

    def leave(self, line, what, row=None):
        """Notes a line, or a part, as not carried."""
        self.left.append(Left(line, what, row))

    def refuse(self, line, refused):
        """Notes a line as not carried for a raised reason."""
        self.leave(line, refused.what, refused.row)

    @contextlib.contextmanager
    def refusing(self, line):
        """Notes a line as not carried if the block refuses it."""
        try:
            yield
        except Refused as refused:
            self.refuse(line, refused)

    def record(self, names, line, refused):
        """Notes own records of names, and the advice on their line."""
        self.records.append((names, line, refused))

    def pass_over(self, line, why):
        """Notes a line in no need of a counterpart, with the reason."""
        self.needless.append(Left(line, why))

    def route(self, text):
        """The route of a suffix, made if new."""
        suffix = suffix_of(text)
        return self.routes.setdefault(key_of(suffix), Route(suffix))

    def serve(self, text, peer, line, remark=""):
        """A server for the names of a suffix. `peer` returns the server, or raises why not."""
        route = self.route(text)
        try:
            server = route.servers.setdefault(peer(), Value("", [], remark))
        except Refused as refused:
            route.lost.append((line, refused))
        else:
            server.lines.append(line)

    def deny(self, text, line, remark=""):
        """Names at and below a suffix are asked of nobody."""
        route = self.route(text)
        route.denied.append(line)
        route.remark = route.remark or remark

    def own_zone(self, text, line):
        """A zone with own data of the server. Nobody is asked until a route has its servers."""
        route = self.route(text)
        what = f"the server has this zone itself: write a route to a server that has {route.suffix}"
        route.lost.append((line, Refused(what, Row.RECORDS)))

    def undo_denial(self, key, line):
        """Takes a denial back, since a later line of the suffix decides."""
        route = self.routes.get(key)
        if route and line in route.lines():
            route.denied = [each for each in route.denied if each != line]
            route.lost = [each for each in route.lost if each[0] != line]
            route.remark = ""
            if not route.lines():
                del self.routes[key]

    def limit(self, key, text, line, remark=""):
        """A limit; a value out of range becomes the nearest within."""
        if not (text.isascii() and text.isdigit()):
            raise Refused(f"{text or 'nothing'} is no number")
        least, most, _ = LIMITS[key]
        digits = text.lstrip("0") or "0"
        value = min(max(int(digits[:10]), least), most)
        if str(value) != digits:
            self.leave(line, f"`{key}` is {least} to {most}: {value} is written")
        self.supersede(self.limits.get(key))
        self.limits[key] = Value(str(value), [line], remark)

    def stale(self, switch, is_on, window, text, without):
        """How long an expired record set may be answered, by the lines of a switch and of a window;
        `text` returns the seconds."""
        if not is_on:
            for line in filter(None, (switch, window)):
                self.pass_over(line, f"without `{without}` nothing expired is answered")
            return
        with self.refusing(window or switch):
            self.limit("stale_s", text(), window or switch, "once all tries failed")
        if window:
            self.pass_over(switch, "`stale_s` above 0 says it")

    def set_port(self, text, line):
        """The port of all addresses without a port."""
        port = Value(str(port_of(text)), [line])
        self.supersede(self.port)
        self.port = port

    def supersede(self, before):
        """Notes the lines of a replaced value."""
        for line in before.lines if before else ():
            self.pass_over(line, "a later line decides")

    def listen(self, address, port, line, remark=""):
        """An address for clients; `port` is None if another line has the port."""
        self.addresses.append((address, port, line, remark))

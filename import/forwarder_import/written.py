"""The configuration as text, with the source of each value."""
import functools
import itertools

from .advice import advised
from .configuration import configuration_of
from .files import LONGEST_ADVICE, shown
from .found import LIMITS, Value
from .rows import TABLE
from .settling import MOST_ROUTES
from .units import Unit

LARGEST = 16_000_000  # octets of the text: the program takes 16,777,216
MOST_ALIKE = 8  # neighbouring lines with equal advice: more are a range
MOST_PLACES = 64  # next to a key


class Writer:
    """Writes the settled findings."""

    def __init__(self, found, files):
        self.found, self.paths, self.place, self.advice = found, files.read, files.place, []

    def origin(self, value):
        """The comment next to a key."""
        places = list(dict.fromkeys(self.place(run[0], run[-1]) for run in runs(value.lines)))
        more = [f"and {len(places) - MOST_PLACES} more"] if len(places) > MOST_PLACES else []
        said = ", ".join(places[:MOST_PLACES] + more)
        if value.remark:
            said = f"{said}: {value.remark}" if said else value.remark
        return f"  # {said}" if said else ""

    def text(self, listen, routes):
        lines = [f"# Made by forwarder-import from {', '.join(map(shown, self.paths))}."]
        lines.append("# Read it, mend it, and have it checked: forwarder check FILE.")
        denies = any(not route.servers for route in routes)
        version = 2 if "stale_s" in self.found.limits or denies else 1
        lines += [f"version = {version}", "", f'listen = "{listen.text}"{self.origin(listen)}']
        limits = [key for key in LIMITS if key in self.found.limits]
        if limits:
            lines += ["", "[limits]"]
            values = ((key, self.found.limits[key]) for key in limits)
            lines += [f"{key} = {value.text}{self.origin(value)}" for key, value in values]
        for route in routes:
            many = next((each for each in self.found.many if each.suffix == route.suffix), None)
            lines += ["", *(self.many(many) if many else ()), *self.route(route)]
        lines += self.kept()
        text = "\n".join(lines) + "\n"
        self.advice = advised(configuration_of(text, "the text"), Unit())
        return text + "".join(within(LARGEST - len(text.encode()), list(self.comments())))

    def route(self, route):
        if self.found.placeholder:
            yield ("# No line names a server that can be asked, and there has to be a route. Names"
                   " below `invalid`")
            yield "# do not exist (RFC 6761); all others are refused until a route has servers."
        yield "[[route]]"
        yield f'suffix = "{route.suffix}"' + self.origin(Value("", route.lines()[:1]))
        if not route.servers:
            yield "deny = true" + self.origin(Value("", route.denied, route.remark))
        elif len({(*map(self.place, server.lines), server.remark)
                  for server in route.servers.values()}) == 1:
            said = ", ".join(f'"{text}"' for text in route.servers)
            yield f"servers = [{said}]{self.origin(next(iter(route.servers.values())))}"
        else:
            yield "servers = ["
            for text, server in route.servers.items():
                yield f'    "{text}",{self.origin(server)}'
            yield "]"

    def many(self, many):
        """A comment on many routes of a line."""
        place = self.place(many.line)
        yield f"# {many.count} of at most {MOST_ROUTES} routes are of {place}, from here on:"
        yield "# names of private addresses and the like, asked of nobody."
        if many.network:
            alone = f"addresses of {many.network} alone"
            yield f"# If the office has {alone}, the next route is enough for"
            yield "# addresses: drop the further ones."

    def kept(self):
        if not self.found.kept:
            return
        head = "# dnsmasq is kept for DHCP. This is all of its configuration, taken out by"
        yield from ("", head)
        yield "#     sed -n 's/^#: //p' forwarder.toml"
        yield from (f"#: {line}" for line in self.found.kept)

    def comments(self):
        """The left lines with advice, the needless lines, and the lines of forwarder-advise."""
        table = f"'{TABLE}' in /usr/share/doc/pavelimoan/docs/ADMIN.md."
        for head, lines in (
                (("# Left out, with what to do. Rows are those of the table", f"# {table}"),
                 self.grouped(self.found.left)),
                (("# Needs no line here.",), self.grouped(self.found.needless)),
                (("# What forwarder-advise says of this text.",),
                 (f"#     {line}" for line in self.advice))):
            for number, line in enumerate(lines):
                yield from (line,) if number else ("", *head, line)

    def grouped(self, lefts):
        """Lines with advice, written once for neighbouring lines."""
        for said, group in itertools.groupby(self.sorted(lefts), key=advice):
            for place, text in self.named(group):
                yield f"# {place}: {text or '(no line)'}"
            yield f"#     {said}"

    def sorted(self, lefts):
        """The left lines, in the order of files and lines."""
        order = {path: number for number, path in enumerate(self.paths)}
        return sorted(dict.fromkeys(lefts),
                      key=lambda left: (order[left.line.path], left.line.number))

    def named(self, lefts):
        """Place and text of each line, or of each range by first and last line."""
        for run in runs(dict.fromkeys(left.line for left in lefts)):
            first, last = run[0], run[-1]
            until = f" to {shown(last.text)}" if first != last else ""
            yield self.place(first, last), shown(first.text) + until

    def notes(self):
        """A line for each left line or range, and advice, for standard error."""
        for said, group in itertools.groupby(self.sorted(self.found.left), key=advice):
            for place, text in self.named(group):
                yield f"{place}: {text + ': ' if text else ''}left out: {said}"
        yield from (f"advice: {line}" for line in self.advice)


def runs(lines):
    """Lists of lines: a single list for a long run of neighbouring lines."""
    run = []
    for line in lines:
        if run and (line.path != run[-1].path or line.number - run[-1].number not in (0, 1)):
            yield from long_or_each(run)
            run = []
        run.append(line)
    yield from long_or_each(run)


def long_or_each(run):
    """The run as a list if long, otherwise a list for each line."""
    return [run] if len(run) > MOST_ALIKE else [[line] for line in run]


def within(octets, lines):
    """Comments with their ends, as many as there is room for."""
    for number, line in enumerate(lines):
        octets -= len(line.encode()) + 1
        if octets < 0:
            more = f"{len(lines) - number} more lines would make this file too large"
            yield f"# {more}. Standard error has all that is left out.\n"
            return
        yield f"{line}\n"


def advice(left):
    """The advice, and the row with more."""
    return advice_of(left.what, left.row)


@functools.lru_cache
def advice_of(what, row):
    """The advice, and the row with more, by parts."""
    said = f"see row '{row.value}'" if row else ""
    return shown(what, LONGEST_ADVICE) + (f" ({said})" if said and what else said)

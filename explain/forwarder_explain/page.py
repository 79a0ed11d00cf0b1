"""A page of HTML with the fates of questions, without a script and without a network.

Names come from strangers: all text is escaped, and the page allows a browser no script and no address.

Each question is counted in some groups. The lines of the first questions of a group are put into a file, with the marks
of all their groups: the groups that the page shows, and so the lines, are known at the end."""
import json
import os
import stat
import tempfile
from html import escape

from . import judge
from .tally import MOST_COUNTED, OTHERS, REASONS, reason_of, reason_text
from .times import SECOND
from .wording import address_text, clock, counted, moment_text, server_text, shown

MOST_FAILURES = 30  # names with a reason
STYLE = """body{font:15px/1.45 sans-serif;max-width:72em;margin:1em auto;padding:0 1em;color:#222;background:#fff}
h1{font-size:1.4em}h2{font-size:1.1em;margin:1.6em 0 .3em}table{border-collapse:collapse}
th,td{text-align:right;padding:.1em .7em;vertical-align:top}th{color:#666;font-weight:normal}
th:first-child,td:first-child,.text{text-align:left}td:first-child{overflow-wrap:anywhere}
tr:nth-child(even) td{background:#f4f4f2}a{color:#14559c}svg{max-width:100%;height:auto}
ol{list-style:none;padding:0;font:12px/1.5 monospace}li{overflow-wrap:anywhere;padding-left:.6em;margin:.1em 0;
border-left:.5em solid #ddd}li pre{margin:0;white-space:pre-wrap}.chosen{display:none}.chosen:target{display:block}
.key{display:inline-block;width:.8em;height:.8em;margin-right:.4em}.note{color:#666}
.verdict{font-size:1.7em;font-weight:600;margin:.4em 0}"""
CLASS, TEXTS = ' class="text"', ("name", "type", "reason", "how")  # of columns
POLICY = "default-src 'none'; style-src 'unsafe-inline'"
HEAD = f'''<!DOCTYPE html>
<html lang="en"><head><meta charset="utf-8"><meta http-equiv="Content-Security-Policy" content="{POLICY}">
<meta name="viewport" content="width=device-width">'''
WIDTH, HEIGHT, LEFT, MOST_LABELS = 900, 180, 50, 6  # of the bars over time
MOST_LINES, MOST_OF_BAR = 100, 20  # lines of a number, and of a part of a bar
MOST_BARS = 75
# How a question ended, with colours.
FATES = {
    "from the cache": "#7fb2dd", "asked of a server": "#2f7d32", "denied by the configuration": "#a9a9a4",
    "expired data": "#e0b03a", "failed": "#c6402f", "without an answer": "#5d4a66", "refused": "#222222",
    "open": "#8a6d4b", "different": "#d6259a",
}  # fmt: skip
CACHED, ASKED, DENIED, EXPIRED, FAILED, NO_ANSWER, REFUSED, OPEN, WRONG = FATES
AMBER = "#b26a00"


class Group:
    """Questions of a number: how many there are, how many lines are shown at most, and the number's place in the page,
    None as long as nothing leads here. Lines in the file bear its mark."""

    __slots__ = ("mark", "number", "count", "most")

    def __init__(self, mark, most):
        self.mark, self.number, self.count, self.most = mark, None, 0, most


class Groups:
    """All groups by their subjects: a bar by moment and fate, others by two words. `span` has the moments of the first
    and the last question, `step` is the length of a bar."""

    def __init__(self):
        self.found, self.linked, self.kinds, self.made = {}, {}, {}, 0
        self.span, self.step = None, SECOND
        self.lines = tempfile.TemporaryFile("w+", encoding="utf-8")  # which nobody else can read

    def add(self, row):
        moment = row.question.moment
        first, last = self.span or (moment, moment)
        first, last = self.span = min(first, moment), max(last, moment)
        if (last - first) // self.step >= MOST_BARS - 1:
            self.lengthen(last - first)
        groups, is_shown = [self.group(key) for key in dict.fromkeys(self.keys_of(row))], False
        for group in groups:
            group.count += 1
            is_shown |= group.count <= group.most
        if is_shown:
            self.lines.write(json.dumps((moment, [group.mark for group in groups], line_of(row))) + "\n")

    def group(self, key):
        if key not in self.found:
            is_of_bar = isinstance(key[0], int)
            self.found[key] = Group(self.made, MOST_OF_BAR if is_of_bar else MOST_LINES)
            self.made += 1
            if not is_of_bar:
                self.kinds[key[0]] = self.kinds.get(key[0], 0) + 1
        return self.found[key]

    def bars(self):
        return {key: group for key, group in self.found.items() if isinstance(key[0], int)}

    def lengthen(self, lasts):
        while lasts // self.step >= MOST_BARS - 1:
            self.step *= 2
        for (moment, fate), group in sorted(self.bars().items()):
            del self.found[moment, fate]
            self.group((moment // self.step * self.step, fate)).count += group.count

    def keys_of(self, row):
        """The subjects of a question; the first is how it ended."""
        fate, client = fate_of(row), self.known("client", address_text(row.question.peer[0]))
        yield fate, ""
        yield row.question.moment // self.step * self.step, fate
        yield "reason", reason_text(*reason_of(row))
        yield "client", client
        if fate == CACHED:
            yield "from the cache, of client", client
        if row.failed():
            yield "failed, of client", client
        if fate in (EXPIRED, FAILED, NO_ANSWER, REFUSED, WRONG):
            yield "failure", self.known("failure", failure_of(row, fate))
        for query, how in row.tries():
            server = server_text(query)
            yield "server", server
            if how != "answered":
                yield "failed, at server", server

    def known(self, kind, of):
        """A subject, or the others once there are very many."""
        if (kind, of) in self.found or self.kinds.get(kind, 0) < MOST_COUNTED:
            return of
        return OTHERS if isinstance(of, str) else (OTHERS, *("" for _ in of[1:]))

    def link(self, key, text):
        group = self.found.get(key)
        if group is None:
            return escape(text)
        if group.number is None:
            group.number = len(self.linked)
            self.linked[key] = group
        return f'<a href="#g{group.number}">{escape(text)}</a>'

    def style(self):
        return "".join(f"#g{each}:target~ol>li:not(.g{each}){{display:none}}" for each in range(len(self.linked)))

    def headings(self):
        for (kind, of), group in self.linked.items():
            kind = moment_text(kind)[:19] if isinstance(kind, int) else kind
            of = ", ".join(of) if isinstance(of, tuple) else of
            what = f"the first {group.most} of " if group.count > group.most else ""
            said = f"{kind}{': ' if of else ''}{of}: {what}{counted(group.count, 'question')}"
            yield f'<p class="chosen" id="g{group.number}"><b>{escape(said)}</b> · <a href="#lines">all lines</a></p>'

    def listed(self):
        fates = {self.found[fate, ""].mark: fate for fate in FATES if (fate, "") in self.found}
        linked = {group.mark: group for group in self.linked.values()}
        left = {group: group.most for group in linked.values()}
        self.lines.seek(0)
        for moment, marks, line in map(json.loads, self.lines):
            bar = self.linked.get((moment // self.step * self.step, fates[marks[0]]))
            groups = {linked.get(mark) for mark in marks} | {bar}
            shown = sorted(group.number for group in groups if group and left[group])
            for group in groups - {None}:
                left[group] -= left[group] > 0
            if shown:
                yield f'<li class="{" ".join(f"g{number}" for number in shown)}" {line}</li>'


def line_of(row):
    more = "<pre>" + escape("\n".join(row.differs())) + "</pre>" if row.is_different() else ""
    return f'style="border-color:{FATES[fate_of(row)]}">{escape(row.line())}{more}'


def fate_of(row):
    if row.is_different():
        return WRONG
    if row.answer is None:
        return REFUSED if row.is_refused() else NO_ANSWER
    if row.verdict.reason == 12:
        return EXPIRED
    if row.failed():
        return FAILED
    if row.verdict.reason == 13:
        return DENIED
    if row.verdict.kind == judge.OPEN:
        return OPEN
    return ASKED if row.is_asked() else CACHED


def failure_of(row, fate):
    reason = row.verdict.reason
    why = fate if reason is None else REASONS[reason]
    if row.answer is None:
        why = row.outcome()
    elif fate != EXPIRED:
        why = f"{row.code}, {why}"
    name, kind = row.asked[2:]
    return name.lower(), kind, why


def table(heads, rows):
    heads = (f'<th{CLASS if head in TEXTS else ""}>{escape(head)}</th>' for head in heads)
    yield f"<table><tr>{''.join(heads)}</tr>"
    for cells in rows:
        yield "<tr>" + "".join(cell if cell.startswith("<td") else f"<td>{cell}</td>" for cell in cells) + "</tr>"
    yield "</table>"


def text(words):
    return f"<td{CLASS}>{escape(words)}</td>"


def headline(tally):
    """The verdict in a few words, and its colour."""
    answers, of = tally.answers, tally.kinds
    if of[judge.DIFFERENT]:
        return f"Different answers: {of[judge.DIFFERENT]:,} of {answers:,}", FATES[FAILED]
    if of[judge.OPEN] or not answers:
        return f"No answer is different; open: {of[judge.OPEN]:,} of {answers:,}", AMBER
    return f"All answers are right: {answers:,}", FATES[ASKED]


class Page:
    """The page of the questions of groups; `about` has its subject, a line each."""

    def __init__(self, groups, summary, about):
        self.groups, self.tally, self.about, self.link = groups, summary.tally, about, groups.link
        self.verdict, (self.head, self.colour) = summary.verdict(), headline(summary.tally)

    def html(self):
        counts = [*self.counts()]  # which make the links
        yield HEAD
        yield f"<title>{escape(self.about[0])}</title><style>{STYLE}{self.groups.style()}</style></head><body>"
        yield f"<h1>{escape(self.about[0])}</h1>"
        yield f'<p class="verdict" style="color:{self.colour}">{escape(self.head)}</p>'
        yield from (f'<p class="note">{escape(line)}</p>' for line in self.about[1:])
        yield "<p>" + "<br>".join(map(escape, self.verdict)) + "</p>"
        yield from counts
        most = f"A number above leads to its lines, {MOST_LINES} at most, a part of a bar to {MOST_OF_BAR}."
        yield f'<h2 id="lines">Lines</h2><p class="note">{most}</p>'
        yield from (*self.groups.headings(), "<ol>", *self.groups.listed(), "</ol></body></html>")

    def counts(self):
        yield "<h2>Questions over time</h2>"
        yield from self.over_time({key: group.count for key, group in self.groups.bars().items()})
        yield from table(("", "questions"), self.by_fate())
        yield "<h2>Reasons</h2>"
        yield from table(("", "questions", "median ms", "99 % ms"), self.by_reason())
        yield '<h2>Servers</h2><p class="note">All queries of the capture, and those without a packet.</p>'
        yield from table(("", "queries", "share", "median ms", "99 % ms", "failed", "how"), self.by_server())
        yield "<h2>Failures by name and reason</h2>"
        yield from table(("name", "type", "reason", "questions"), self.by_failure())
        yield "<h2>Clients</h2>"
        yield from table(("", "questions", "from the cache", "failed", "median ms"), self.by_client())

    def over_time(self, bars):
        step, heights = self.groups.step, {}
        for (moment, _), count in bars.items():
            heights[moment] = heights.get(moment, 0) + count
        first, most = min(heights, default=0), max(heights.values(), default=1)
        number = (max(heights, default=0) - first) // step + 1
        width = (WIDTH - LEFT) / number
        yield f'<svg viewBox="0 0 {WIDTH} {HEIGHT + 25}" role="img" width="{WIDTH}">'
        yield f"<title>Questions by {step // SECOND:,} s and by what became of them</title>"
        for y, label in ((12, f"{most:,}"), (HEIGHT, "0")):
            yield f'<text x="{LEFT - 6}" y="{y}" text-anchor="end" font-size="12">{label}</text>'
        for moment in sorted(heights):
            x, y = LEFT + (moment - first) // step * width, HEIGHT
            for fate, colour in FATES.items():
                if count := bars.get((moment, fate), 0):
                    height = HEIGHT * count / most
                    y -= height
                    shape = f'x="{x:.1f}" y="{y:.1f}" width="{max(1, width - 1):.1f}" height="{height:.1f}"'
                    said = escape(f"{clock(moment)[:8]} {fate}: {count:,}")
                    before, _, after = self.link((moment, fate), "0").partition(">0<")
                    yield f'{before}><rect {shape} fill="{colour}"><title>{said}</title></rect><{after}'
        for place in range(0, number, -(-number // MOST_LABELS)):
            x = LEFT + place * width
            yield f'<text x="{x:.0f}" y="{HEIGHT + 17}" font-size="12">{clock(first + place * step)[:8]}</text>'
        yield "</svg>"

    def by_fate(self):
        for fate, colour in FATES.items():
            if group := self.groups.found.get((fate, "")):
                key = f'<span class="key" style="background:{colour}"></span>'
                yield f"{key}{escape(fate)}", self.link((fate, ""), f"{group.count:,}")

    def by_reason(self):
        for name, (number, *times) in self.tally.by_reason():
            yield text(name), self.link(("reason", name), number), *times

    def by_server(self):
        for server, (number, share, median, most, failed, how) in self.tally.by_server():
            queries, failed = self.link(("server", server), number), self.link(("failed, at server", server), failed)
            yield text(server), queries, share, median, most, failed, text(how)

    def by_failure(self):
        found = [(of, group) for (kind, of), group in self.groups.found.items() if kind == "failure"]
        found.sort(key=lambda each: -each[1].count)
        for of, group in found[:MOST_FAILURES]:
            yield *map(text, of), self.link(("failure", of), f"{group.count:,}")
        if len(found) > MOST_FAILURES:
            yield text(f"and {len(found) - MOST_FAILURES:,} more"), "", "", ""

    def by_client(self):
        kinds = "client", "from the cache, of client", "failed, of client"
        for client, (*numbers, median) in self.tally.by_client():
            yield text(client), *(self.link((kind, client), said) for kind, said in zip(kinds, numbers)), median


def write(options, settings, groups, summary):
    """Writes the page. Nobody else may read it, since it says who asked for what, nor if the file was there before."""
    number = os.open(options.html, os.O_WRONLY | os.O_CREAT, 0o600)
    with open(number, "w", encoding="utf-8") as file:
        if stat.S_ISREG(os.fstat(number).st_mode):
            os.fchmod(number, 0o600)
            os.truncate(number, 0)
        page = Page(groups, summary, about(options, settings, groups.span))
        file.writelines(f"{line}\n" for line in page.html())


def about(options, settings, span):
    when = f"from {moment_text(span[0])} to {moment_text(span[1])}, " if span else ""
    chosen = (
        ("--at", options.at), ("--from", options.since), ("--to", options.until), ("--client", options.client),
        ("--name", options.name), ("--failures", "alone" if options.failures else ""),
    )  # fmt: skip
    said = "".join(f"; {name} {value}" for name, value in chosen if value)
    return f"Questions to {shown(settings.listen)}", f"{when}in {options.capture}, by {options.configuration}{said}"

"""The measurements of a program."""
import contextlib
import dataclasses
import functools
import pathlib
import re
import statistics
import subprocess

from beside_parts import programs
from beside_parts.programs import ASKS_ON, SERVED, Bare, Failed
from running import processes
from running.processes import TICKS, fields, tree
from running.programs import on, output

OUTSTANDING, SLOW, FEW = 64, 1000, 10
TRIES = 3
# Ten connections, each for a hundred questions: dnsmasq ends one after a hundred.
OVER_TCP = ["-m", "tcp", "-c", "10", "-O", "num-queries-per-conn=100"]
# More than any of them asks for in a second or two.
DIFFERENT = 400_000


@dataclasses.dataclass
class Spent:
    """The seconds in which a program and its children ran, and waited for a processor."""

    ran: float = 0.0
    user: float = 0.0
    system: float = 0.0
    waited: float = 0.0

    def since(self, before):
        names = [field.name for field in dataclasses.fields(self)]
        return Spent(*(getattr(self, name) - getattr(before, name) for name in names))


def spent(pid):
    """The seconds of a program until now. Ended children are counted in ticks, as user's share."""
    total = Spent()
    for each in tree(pid):
        try:
            of_stat = [int(word) / TICKS for word in fields(each)[11:15]]
            threads = pathlib.Path(f"/proc/{each}/task").glob("*/schedstat")
            schedules = [thread.read_text().split() for thread in threads]
        except (OSError, ValueError):
            continue
        total.user += of_stat[0] + of_stat[2]
        total.system += of_stat[1] + of_stat[3]
        total.ran += sum(int(words[0]) for words in schedules) / 1e9 + sum(of_stat[2:])
        total.waited += sum(int(words[1]) for words in schedules) / 1e9
    return total


def resident(pid):
    """MiB of resident memory, shared libraries included; a child may end meanwhile."""
    octets = 0
    for each in tree(pid):
        with contextlib.suppress(OSError):
            octets += processes.resident(each)
    return octets / 2**20


def dnsperf(file, *more):
    """The report of dnsperf on one run."""
    words = ["dnsperf", "-s", "127.0.0.1", "-p", str(SERVED), "-d", file, *map(str, more)]
    return subprocess.run(on(ASKS_ON, words), capture_output=True, text=True, check=False).stdout


def answers(report, code, least):
    """The number of answers with this result code, for this share of the questions at least."""
    found = re.search(rf"{code} (\d+)", report)
    sent = re.search(r"Queries sent:\s+(\d+)", report)
    count = int(found[1]) if found else 0
    if not sent or count < least * int(sent[1]) or not count:
        lines = re.findall(r"(?:Response codes|Queries sent|Queries lost):.*", report)
        raise Failed("not all was answered: " + "; ".join(lines))
    return count


def an_answer(pid, asked, load, code="NOERROR", least=0.99):
    """The cost of each answer of a load to the program, in µs, and the report of dnsperf."""
    before, questions = spent(pid), asked.questions()
    report = load()
    took = spent(pid).since(before)
    count = answers(report, code, least)
    split = took.ran / max(took.user + took.system, 1 / TICKS)
    found = {"us": 1e6 * took.ran / count, "user": 1e6 * took.user * split / count,
             "system": 1e6 * took.system * split / count,
             "asked": 100 * (asked.questions() - questions) / count,
             "waited": 100 * took.waited / (took.ran + took.waited)}
    return found, report


def numbered(form, count):
    return (form.format(k) for k in range(count))


class Bench:
    """The measurements, each of a freshly started program."""

    def __init__(self, folder, bare, asked, seconds):
        self.folder, self.bare, self.asked, self.seconds = folder, bare, asked, seconds
        self.ten = self.file("ten", numbered("n{}.example", FEW))
        self.full = self.file("full", numbered("n{}.example", programs.NAMES))
        self.new = self.file("new", numbered("m{}.example", DIFFERENT))
        self.gone = self.file("gone", ["gone.example"])
        self.names_below = self.file("below", numbered("b{}.gone.example", DIFFERENT))

    def file(self, name, names):
        """The path of a file for dnsperf with these names."""
        (self.folder / name).write_text("".join(f"{each} A\n" for each in names))
        return str(self.folder / name)

    def filled(self, file, *more):
        dnsperf(file, "-n", "1", "-q", OUTSTANDING, *more)

    def figures(self, program, file, *more, filling=None, outstanding=OUTSTANDING,
                around=contextlib.nullcontext, **wanted):
        """The figures of an answer while a program, once its cache is filled, is asked for the
        names of a file, and the report of dnsperf. `around` is entered meanwhile; `wanted` are the
        code and the least share of answers."""
        def load():
            return dnsperf(file, "-l", self.seconds, "-q", outstanding, *more)

        with programs.running(program, self.folder) as pid, around():
            start = resident(pid)
            if filling:
                self.filled(filling, *more)
            full = resident(pid)
            found, report = an_answer(pid, self.asked, load, **wanted)
        return {**found, "start": start, "full": full}, report

    def cached(self, program):
        return self.figures(program, self.ten, filling=self.ten)[0]

    def awake(self, program):
        """Cached answers for a generator that never sleeps: the program wakes nobody."""
        words = [self.bare, "ask", SERVED, FEW, OUTSTANDING, self.seconds]
        ask = functools.partial(output, *on(ASKS_ON, list(map(str, words))))
        with programs.running(program, self.folder) as pid:
            self.filled(self.ten)
            return an_answer(pid, self.asked, ask)[0]

    def many(self, program):
        return self.figures(program, self.full, filling=self.full)[0]

    def stream(self, program):
        return self.figures(program, self.ten, *OVER_TCP, filling=self.ten)[0]

    def slow(self, program):
        """At 1,000 questions a second, which keeps no program busy, with the waits of a client."""
        found, report = self.figures(program, self.ten, "-Q", SLOW, "-v", filling=self.ten)
        waits = [1e6 * float(each)
                 for each in re.findall(r"^> NOERROR .* (\d+\.\d+)$", report, re.M)]
        cuts = statistics.quantiles(waits, n=100)
        return {**found, "p50": cuts[49], "p99": cuts[98]}

    def miss(self, program):
        return self.figures(program, self.new)[0]

    def below(self, program):
        code = "NOERROR" if isinstance(program, Bare) else "NXDOMAIN"
        return self.figures(program, self.names_below, filling=self.gone, code=code)[0]


# The measurements in the order of the table, each with its bare program.
BESIDE = {"cached": "echo", "awake": "echo", "many": "echo", "stream": "stream", "miss": "relay",
          "below": "echo", "slow": "echo"}


def see_what_was_asked(name, of_hundred):
    """A miss has to be asked of the server, and a cached answer must not be."""
    is_cached = name in ("cached", "awake", "many", "stream", "slow")
    if name == "miss" and of_hundred < 99 or is_cached and of_hundred > 1:
        raise Failed(f"of 100 questions it asked the server {of_hundred:.1f}")


def repeated(measure):
    """A measurement, repeated if it fails, since a busy machine loses questions."""
    for left in reversed(range(TRIES)):
        try:
            return measure()
        except Failed:
            if not left:
                raise


def once(bench, name, program):
    figures = getattr(bench, name)(program)
    see_what_was_asked(name, figures["asked"])
    return figures


def middle(rounds, bare):
    """The median of each figure, and of the ratios to the bare program's in each round.

    User's and system's shares are of all rounds, since ticks count them."""
    found = {name: statistics.median(one[name] for one in rounds) for name in rounds[0]}
    user, system = (sum(one[name] for one in rounds) for name in ("user", "system"))
    share = found["us"] / (user + system or 1)
    found.update(user=user * share, system=system * share)
    ratios = [each["us"] / beside["us"] for each, beside in zip(rounds, bare)]
    found.update(ratio=statistics.median(ratios), least=min(ratios), most=max(ratios))
    return {name: round(value, 3) for name, value in found.items()}


def measured(bench, measured_programs, rounds, say):
    """All figures, by measurement and program, and the faults."""
    found, faults = {name: {} for name in BESIDE}, {}
    for number in range(rounds):
        for name, way in BESIDE.items():
            say(f"round {number + 1} of {rounds}: {name}")
            for program in [Bare(bench.bare, way), *measured_programs]:
                try:
                    figures = repeated(lambda: once(bench, name, program))
                    found[name].setdefault(program.key, []).append(figures)
                except Failed as fault:
                    faults[(name, program.key)] = str(fault)
    figures = {}
    for name, each in found.items():
        whole = {key: of_key for key, of_key in each.items() if (name, key) not in faults}
        if "bare" in whole:
            figures[name] = {key: middle(of_key, whole["bare"]) for key, of_key in whole.items()}
    return figures, faults

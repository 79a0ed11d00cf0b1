"""The service next to bare sockets: what the silent, the many and the flooding clients cost."""
import contextlib
import re
import socket
import statistics
import subprocess
import time

from beside_parts import programs
from beside_parts.measures import dnsperf, numbered, repeated, spent
from beside_parts.programs import SERVED, Bare, Forwarder
from running.programs import on

ROUNDS, SILENT, IDLE = 7, 1000, 5  # seconds
MANY_LOST = 0.5  # the share of answers next to a thousand questions at once, past the buffers
FLOODS, MOST, FLOODING_ON = 300_000, 60_000, ("0", "3")


@contextlib.contextmanager
def silent_clients(count=SILENT):
    """So many connections without a question, until the block ends."""
    with contextlib.ExitStack() as opened:
        for _ in range(count):
            opened.enter_context(socket.create_connection(("127.0.0.1", SERVED)))
        yield


def compare(title, first, second):
    """Prints the middle ones of both figures and of the ratios of neighbours: they depend less on a
    host whose speed changes."""
    pairs = [(repeated(first), repeated(second)) for _ in range(ROUNDS)]
    one, other = (statistics.median(each) for each in zip(*pairs))
    ratios = [after / before for before, after in pairs]
    figures = [f"{one:.2f} µs", f"{other:.2f} µs", f"{statistics.median(ratios):.2f}",
               f"{min(ratios):.2f} to {max(ratios):.2f}"]
    print("|", " | ".join([title, *figures]), "|", flush=True)


def rows(bench, program):
    """The rows of the table: a title, and both measurements."""
    echo, relay = Bare(bench.bare, "echo"), Bare(bench.bare, "relay")
    refused = bench.file("refused", ["a.elsewhere"])

    def us(measured, file, **more):
        return lambda: bench.figures(measured, file, **more)[0]["us"]

    def is_refused(**more):
        return us(program, refused, code="REFUSED", **more)

    yield "a refused question, next to an echo", us(echo, refused), is_refused()
    for count in (10, 10_000, 65_536):
        file = bench.file(f"names{count}", numbered("n{}.example", count))
        title = f"a cached answer, {count} names, next to an echo"
        yield title, us(echo, file), us(program, file, filling=file)
    for labels in (1, 2, 4):
        below = bench.file(f"below{labels}", numbered("{0}." * labels + "gone.example", 10))
        title = f"a name {labels} labels below a denied one, next to a cached answer"
        yield (title, us(program, bench.ten, filling=bench.ten),
               us(program, below, filling=bench.gone, code="NXDOMAIN"))
    for outstanding in (10, 100, 1000):
        title = f"a miss, {outstanding} outstanding, next to a relay"
        yield (title, us(relay, bench.new, outstanding=outstanding, least=MANY_LOST),
               us(program, bench.new, outstanding=outstanding, least=MANY_LOST))
    yield (f"a refused question, {SILENT} silent clients, next to none", is_refused(),
           is_refused(around=silent_clients))


def answered(printed):
    found = re.search(r"NOERROR (\d+)", printed)
    return int(found[1]) if found else 0


def flood(bench, program):
    """The answers a second at the best rate, and while two processes send all they can."""
    files = [bench.file(f"many{n}", numbered(f"n{{}}.of{n}.example", FLOODS)) for n in (0, 1)]
    with programs.running(program, bench.folder):
        best = answered(dnsperf(files[0], "-l", 1, "-q", 200))
    common = ["dnsperf", "-s", "127.0.0.1", "-p", str(SERVED), "-l", "1", "-q", str(MOST)]
    with programs.running(program, bench.folder):
        runs = [subprocess.Popen(on(processor, [*common, "-t", "1", "-d", file]),
                                 stdout=subprocess.PIPE, stderr=subprocess.DEVNULL, text=True)
                for file, processor in zip(files, FLOODING_ON)]
        printed = [run.communicate()[0] for run in runs]
    met = sum(map(answered, printed))
    sent = sum(int(re.search(r"Queries sent:\s+(\d+)", each)[1]) for each in printed)
    share = 100 * met / max(1, best)
    print(f"best rate {best} answers a second; flooded with {sent} questions a second {met}, "
          f"{share:.0f} %")


def idle(bench, program, count):
    """The share of a processor that the program takes next to clients without questions."""
    with programs.running(program, bench.folder) as pid, silent_clients(count):
        before = spent(pid).ran
        time.sleep(IDLE)
        share = 100 * (spent(pid).ran - before) / IDLE
    print(f"idle, {count} silent clients over TCP: {share:.2f} % of a processor", flush=True)


def measure(bench, path):
    """Prints the table, the flood and the idle service; returns the number of failed rows."""
    program = Forwarder(path, suffix="example", cache=65536)
    print("| What | bare | forwarder | ratio | from, to |\n|---|--:|--:|--:|--:|")
    faults = 0
    for title, *measured in rows(bench, program):
        try:
            compare(title, *measured)
        except programs.Failed as fault:
            faults += 1
            print(f"failed: {title}: {fault}")
    flood(bench, program)
    for count in (0, SILENT):
        idle(bench, program, count)
    return faults

"""What an answer touches, by a trace of instructions, loads and stores (`valgrind --tool=lackey`).

The trace is cut at each `recvfrom`. A part with a `sendto` belongs to an answer: a cached answer
has a single part, a miss has two, the question and the reply.
"""
import pathlib
import re
import statistics
import tempfile
from dataclasses import dataclass, field

from counting.served import Unexpected, ask_all
from running.programs import output

# Octets of a line of the processor's caches.
LINE = 64
# The instructions at a function's head that may make a frame.
PROLOGUE = 40
# Where valgrind puts the stack of the first thread, and a program that may lie anywhere.
STACK, BASE = range(0x1FFE000000, 0x1FFF001000), 0x108000
# Waiting for readiness is not part of an answer.
WAITS = {"epoll_wait", "epoll_pwait", "poll"}
# A round with a look for new clients, every few milliseconds, is in no usual answer.
ROUND = "accept4"


@dataclass
class Part:
    """The trace from a `recvfrom` to the next."""
    calls: list = field(default_factory=list)
    loads: int = 0
    stores: int = 0
    code: set = field(default_factory=set)
    stack: set = field(default_factory=set)
    heap: set = field(default_factory=set)
    addresses: set = field(default_factory=set)

    def kind(self):
        return tuple(call for call in self.calls if call not in WAITS)


def parts_of(trace):
    """The parts of a trace, in order."""
    part = None
    for line in trace:
        if line.startswith("SYSCALL"):
            called = re.search(r"\) (?:sys_)?(\w+) ?\(", line)
            call = called and called[1]
            if call == "recvfrom":
                if part:
                    yield part
                part = Part()
            if part and call:
                part.calls.append(call)
        elif part and line[:2] in ("I ", " L", " S", " M"):
            address = int(line[3:line.index(",")], 16)
            if line[0] == "I":
                part.code.add(address // LINE)
                part.addresses.add(address)
                continue
            part.loads += line[1] in "LM"
            part.stores += line[1] in "SM"
            (part.stack if address in STACK else part.heap).add(address // LINE)


def kinds_of(parts, count):
    """The parts of an answer, by their calls, in order: those of many questions."""
    kinds = {}
    for part in parts:
        if "sendto" in part.calls and ROUND not in part.calls:
            kinds.setdefault(part.kind(), []).append(part)
    return [found for found in kinds.values() if len(found) >= count // 5]


def middle(values):
    return round(statistics.median(values))


def counts_of(kinds):
    """Loads, stores, and lines of code, stack and heap: the middle one of many answers."""
    each = list(zip(*kinds))
    sums = [middle(sum(getattr(part, what) for part in answer) for answer in each)
            for what in ("loads", "stores")]
    lines = [middle(len(set().union(*(getattr(part, what) for part in answer))) for answer in each)
             for what in ("code", "stack", "heap")]
    return sums + lines


def footprint(program, case, count):
    """The counts of an answer of a case, and the addresses of its instructions."""
    with tempfile.TemporaryDirectory() as made:
        log = pathlib.Path(made) / "trace"
        tool = ["--tool=lackey", "--trace-mem=yes", "--trace-syscalls=yes", f"--log-file={log}"]
        ask_all(program, case, count, tool)
        with open(log, errors="replace") as trace:
            parts = list(parts_of(trace))
    # The case's questions are the last ones: first come questions that fill the cache.
    kinds = [found[-count:] for found in kinds_of(parts, count)]
    if not kinds:
        raise Unexpected(f"no answer was found in the trace of: {case.title}")
    touched = set().union(*(part.addresses for found in kinds for part in found))
    return counts_of(kinds), touched


def frames(program, touched):
    """The functions that an answer passes, with octets of their frames, the largest first."""
    listing = output("objdump", "-d", "-C", "--no-show-raw-insn", program)
    is_fixed = "EXEC" in output("readelf", "-h", program)
    base, found, name, is_passed = 0 if is_fixed else BASE, {}, None, False
    for line in [*listing.splitlines(), "0000000000000000 <>:"]:
        head = re.match(r"[0-9a-f]{16} <(.*)>:$", line)
        if head:
            if name and is_passed:
                found[name] = max(frame_of(steps), found.get(name, 0))
            name, is_passed, steps = head[1], False, []
            continue
        step = re.match(r" +([0-9a-f]+):\t(.*)", line)
        if step:
            is_passed = is_passed or base + int(step[1], 16) in touched
            steps.append(step[2])
    return sorted(found.items(), key=lambda it: -it[1])


def frame_of(steps):
    """The octets that a function's first instructions take off the stack. A large frame is taken
    page by page, in turn or in a loop up to a computed address."""
    frame, is_looped = 0, False
    for step in steps[:PROLOGUE]:
        end = re.match(r"(?:sub +\$0x([0-9a-f]+),|lea +-0x([0-9a-f]+)\(%rsp\),)%r11", step)
        room = re.match(r"sub +\$0x([0-9a-f]+),%rsp", step)
        if end:
            frame, is_looped = frame + int(end[1] or end[2], 16), True
        elif room and is_looped:
            is_looped = False
        elif room:
            frame += int(room[1], 16)
    return frame

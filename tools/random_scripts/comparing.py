"""What the program and the reading print of a script, and the lines on which they differ."""
import bisect
import resource
import subprocess
from dataclasses import dataclass

from reading import script

from .scripts import NOTHING

LONGEST_RUN = 60  # seconds


@dataclass(frozen=True)
class Printed:
    """Standard output, standard error and the status."""
    out: str
    error: str
    status: int

    def lines(self):
        return [*self.out.splitlines(), *(f"error: {line}" for line in self.error.splitlines()),
                f"status {self.status}"]


def printed(lines, error, status):
    """What the reading says, as a program prints it: each line ends with a line feed."""
    return Printed("".join(f"{line}\n" for line in lines), f"{error}\n" if error else "", status)


def by_reading(octets):
    """What the reading prints of a script."""
    return printed(*script.replay(octets))


def by_program(program, octets):
    """What a program prints of a script."""
    ran = subprocess.run([program, "replay"], input=octets, capture_output=True, check=False,
                         timeout=LONGEST_RUN)
    return Printed(ran.stdout.decode("latin-1"), ran.stderr.decode("latin-1"), ran.returncode)


def differ(program, octets):
    """Whether the program and the reading print differently of a script."""
    return by_program(program, octets) != by_reading(octets)


def timed(program, octets):
    """What a program prints of a script, and its seconds of processor."""
    before = resource.getrusage(resource.RUSAGE_CHILDREN)
    said = by_program(program, octets)
    after = resource.getrusage(resource.RUSAGE_CHILDREN)
    return said, after.ru_utime + after.ru_stime - before.ru_utime - before.ru_stime


def kinds_in(said):
    """The number of the event and the kind of each printed line; nothing of a failed run."""
    pairs = (line.split(" ", 2) for line in said.out.splitlines())
    return [] if said.status else [(int(number), kind) for number, kind, _ in pairs]


def shortest(octets, is_wrong):
    """The script without the lines that the difference does not need: an event that does nothing is
    in place of each, so that the words of the others stay."""
    top, mark, rest = octets.partition(b"---\n")
    lines = rest.split(b"\n") if rest else []

    def joined(kept):
        return top + mark + b"\n".join(kept)

    count = bisect.bisect_left(range(len(lines)), True, key=lambda at: is_wrong(joined(lines[:at])))
    lines = lines[:count]
    for at in range(len(lines)):
        fewer = [*lines[:at], NOTHING.encode(), *lines[at + 1:]]
        if is_wrong(joined(fewer)):
            lines = fewer
    return joined(lines)


def report(program, octets):
    """A script, shortened, and its printed lines: the program's alone have -, the reading's +."""
    octets = shortest(octets, lambda each: differ(program, each))
    one, other = by_program(program, octets).lines(), by_reading(octets).lines()
    shown = [f"- {line}" if line not in other else f"  {line}" for line in one]
    shown += [f"+ {line}" for line in other if line not in one]
    return "\n".join([octets.decode("latin-1").rstrip("\n"), "prints", *shown])

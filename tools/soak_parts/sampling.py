"""Samples of the forwarder's memory, descriptors and wake-ups, and their growth."""
import dataclasses
import statistics
from typing import NamedTuple

from running.processes import descriptors, resident, spent, waits
from soak_parts.clock import DAY, HOUR, shown

EVERY = HOUR  # seconds of the office between two samples
MOST_MEMORY, MOST_WAKES = 1.03, 1.25  # times the value of the first half of a life
SPARE_MEMORY = 256 * 1024  # octets that memory may rise beyond that
FEWEST = 8  # samples of a life of which a half can be judged
FILLING = DAY  # seconds of a life until its cache is full, and memory has to stay


class Sample(NamedTuple):
    """At a time of the office: octets of memory, open descriptors, how often it has woken up so
    far, and seconds of processor time so far."""

    at: float
    memory: int
    descriptors: int
    wakes: int
    spent: float


def sample(pid, now):
    return Sample(now, resident(pid), descriptors(pid), waits(pid), spent(pid))


@dataclasses.dataclass
class Life:
    """The samples of one process, from its start on."""

    samples: list

    def rates(self):
        """Wake-ups in a second of the office between two samples, and the time of the second."""
        return [(after, (after.wakes - before.wakes) / (after.at - before.at))
                for before, after in zip(self.samples, self.samples[1:]) if after.at > before.at]

    def faults(self):
        """Growth from the first half to the second; of memory once the cache is full."""
        full = [each for each in self.samples if each.at >= self.samples[0].at + FILLING]
        memory = [max(each.memory for each in half) for half in halves(full)]
        if memory and memory[1] > MOST_MEMORY * memory[0] + SPARE_MEMORY:
            yield f"memory grew from {kib(memory[0])} to {kib(memory[1])} by {shown(full[-1].at)}"
        end = shown(self.samples[-1].at) if self.samples else ""
        least = [min(each.descriptors for each in half) for half in halves(self.samples)]
        if least and least[1] > least[0]:
            yield f"at least {least[0]} descriptors became {least[1]} by {end}"
        wakes = [statistics.median(rate for _, rate in half) for half in halves(self.rates())]
        if wakes and wakes[1] > MOST_WAKES * wakes[0]:
            yield f"wake-ups rose from {wakes[0]:.1f} to {wakes[1]:.1f} a second by {end}"


def halves(values):
    """The first and the second half, or nothing of a few."""
    middle = len(values) // 2
    return (values[:middle], values[middle:]) if len(values) >= FEWEST else ()


def kib(octets):
    return f"{octets / 1024:,.0f} KiB"

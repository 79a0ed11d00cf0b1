"""The figures of a run, and the faults."""
import statistics
from collections import Counter

from soak_parts import sampling
from soak_parts.clock import DAY, HOUR

MOST_SHOWN = 10
MOST_UNDUE = 1000  # answers of which one may fail so, on a machine too slow for the clock


def asked(judge):
    """The outcomes for the clients."""
    yield f"clients: {sum(judge.counts.values()):,} questions"
    for word, count in judge.counts.most_common():
        yield f"  {count:>9,} {word}"


def explained(explanations):
    """The findings of forwarder-explain, over all lives."""
    counts, reasons = Counter(), Counter()
    for each in explanations:
        counts.update({key: value for key, value in each.counts.items() if isinstance(value, int)})
        reasons.update(each.reasons)
    questions, answers = (counts.pop(each, 0) for each in ("questions", "answers"))
    yield f"forwarder-explain: {questions:,} questions, {answers:,} answers"
    yield "  " + ", ".join(f"{key.replace('_', ' ')} {value:,}" for key, value in counts.items())
    listed = ", ".join(f"{key}: {value:,}" for key, value in sorted(reasons.items(), key=str))
    yield f"  by reason: {listed or 'none'}"
    for each in explanations:
        for row in each.different[:MOST_SHOWN]:
            fields = " ".join(str(row[key]) for key in ("client", "name", "type"))
            yield f"  different: {each.file.name} {row['time']:.3f} {fields}"
        for note in each.notes:
            yield f"  {note.partition(': ')[2]}"


def lives(found):
    """Memory, descriptors and wake-ups of each life."""
    yield f"something was done up to {found.late:.1f} s of the office late"
    for number, life in enumerate(found.lives, 1):
        if len(life.samples) < 2:
            continue
        first, last = life.samples[0], life.samples[-1]
        hours = (last.at - first.at) / HOUR
        memory = ", ".join(sampling.kib(each.memory) for each in by_day(life))
        fewest, most = (pick(each.descriptors for each in life.samples) for pick in (min, max))
        wakes = statistics.median(rate for _, rate in life.rates())
        yield f"life {number}: {hours / 24:.1f} days, {last.spent - first.spent:.1f} s of processor"
        yield f"  memory at the end of each day: {memory}"
        yield f"  descriptors: {fewest} to {most}; wake-ups: {wakes:.1f} in a second of the office"


def by_day(life):
    """The last sample of each day."""
    found = {}
    for each in life.samples:
        found[int(each.at // DAY)] = each
    return found.values()


def faults(judge, found, explanations):
    """All faults, a line each."""
    yield from (f"by the zones: {fault}" for fault in judge.faults)
    for each in explanations:
        yield from (f"by the claim: {fault}" for fault in each.faults())
    for number, life in enumerate(found.lives, 1):
        yield from (f"life {number}: {fault}" for fault in life.faults())
    if len(judge.undue) * MOST_UNDUE > sum(judge.counts.values()):
        failed = f"{len(judge.undue):,} answers failed though a server was there"
        yield f"{failed}: the first {judge.undue[0]}"

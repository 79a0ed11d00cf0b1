"""Numbers, moments, peers and records in words, and why an answer is different."""
import functools
import time

from . import messages
from .content import NAME_ERROR, SET
from .times import MILLISECOND, SECOND

FEW = 3  # records that are named


def counted(number, noun):
    """A number with its noun: 1 gap, 2 gaps, 3 queries."""
    plural = noun[:-1] + "ies" if noun.endswith("y") else noun + "s"
    return f"{number:,} {noun if number == 1 else plural}"


def duration(micros):
    milliseconds = micros / MILLISECOND
    return f"{milliseconds:.1f}" if 0 < milliseconds < 9.95 else f"{milliseconds:,.0f}"


def seconds_text(micros):
    return f"{micros / SECOND:,.1f} s"


@functools.lru_cache(maxsize=1000)
def time_of_day(seconds):
    return time.strftime("%H:%M:%S", time.localtime(seconds))


def clock(micros):
    return f"{time_of_day(micros // SECOND)}.{micros % SECOND // MILLISECOND:03}"


def moment_text(micros):
    return time.strftime("%Y-%m-%dT", time.localtime(micros // SECOND)) + clock(micros)


def shown(peer):
    return f"{address_text(peer[0])}:{peer[1]}"


@functools.lru_cache(maxsize=10_000)
def address_text(octets):
    return "%d.%d.%d.%d" % tuple(octets)


def server_text(query):
    return shown(query.server) + (" over TCP" if query.transport == "tcp" else "")


def code_text(octets):
    return messages.CODES[messages.code(octets)] if len(octets) >= messages.HEADER else f"{len(octets)} octets"


def message_text(octets):
    """A message in short: code, flags, and the records of its first two sections."""
    parts = [code_text(octets), *(["cut"] if messages.is_cut(octets) else [])]
    try:
        for record in sum(messages.records(octets), []) if len(octets) >= messages.HEADER else ():
            kind = messages.kind_text(record.kind, record.klass)
            parts.append(f"{messages.text(record.owner)} {record.seconds} {kind} {data_text(record.kind, record.data)}")
    except messages.Malformed:
        parts.append("records that can't be read")
    return "; ".join(parts)


def data_text(kind, data):
    if kind == 1 and len(data) == 4:
        return address_text(data)
    if kind in (2, 5, 12):
        return messages.text(data)
    return data.hex() if len(data) <= 24 else f"{data[:24].hex()}.. ({len(data)} octets)"


def of(reply):
    return f"the reply of {server_text(reply.query)} at {clock(reply.moment)}"


def what(part):
    name = messages.text(part.key)
    if part.form == NAME_ERROR:
        return f"the denial of {name}"
    kind = messages.kind_text(part.kind, part.klass)
    return f"{name} {kind}" if part.form == SET else f"the denial of {name} {kind}"


def unlike(part, each):
    source = of(each.reply) if each.reply else "an earlier answer from before the capture"
    if each.form != part.form or part.form != SET:
        return f"{what(part)} is not as {source} has it"
    rows = ", ".join(data_text(part.kind, row) for row in each.rows[:FEW])
    more = f" and {len(each.rows) - FEW} more" if len(each.rows) > FEW else ""
    return f"{what(part)} is {rows}{more} by {source}"


def of_route(reply):
    return f"{of(reply)} has it, which is not of its name's route"


def before_restart(reply, restart):
    return f"{of(reply)} has it, and the service began anew at {clock(restart.since)} ({restart.shown})"


def untaken(reply):
    return f"{of(reply)} has it, which was not taken: the same was asked again"


def replaced(reply, later):
    return f"{of(reply)} has it, which {of(later)} replaced"


def expired(reply, ago):
    return f"{of(reply)} has it, and expired {seconds_text(ago)} before the question"


def ended(until):
    return f"what an earlier answer had from before the capture expired by {clock(until)}"


def lifetime(part, reply, low, high):
    right = f"{high:,}" if low >= high else f"{low:,} to {high:,}"
    by = of(reply) if reply else "an earlier answer"
    return f"{what(part)} has {part.seconds:,} s left, and {right} s by {by}"


def no_reply(part, forged):
    if forged:
        return f"{what(part)} is only in a message that had to be dropped: {forged}"
    return f"no reply that fits a query carried {what(part)}"


def elsewhere(question):
    return f"it came from {address_text(question.elsewhere)}, which was not asked"


def expired_without(found):
    at = max((each.occurrence.ends()[1] for each in found if each.occurrence is not None), default=0)
    return f"its data expired at {clock(at // SECOND * SECOND)}"

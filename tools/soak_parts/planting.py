"""Faults for answers and samples, planted to see that each kind is seen."""
from collections import Counter
from dataclasses import replace

from reading.messages import SOA, Record, first_question, read_message, write_message
from soak_parts.clock import DAY, HOUR
from soak_parts.judging import NOERROR, NXDOMAIN, SERVFAIL, Judge, octets_of, text_of, zone_of
from soak_parts.sampling import Life, Sample
from soak_parts.zones import KINDS, NEGATIVE, NUMBERS

EACH = 100  # the most plants of a kind
NOWHERE = bytes([203, 0, 113, 77])  # never an address of the office


class Answer:
    """An answer with addresses, and the history of the zones; `asked`: seconds of the office."""

    def __init__(self, message, history, asked):
        self.message, self.history, self.asked = message, history, asked
        self.last, self.name = message.answers[-1], text_of(message.answers[-1].owner)

    def versions(self):
        return self.history.versions[self.name, NUMBERS[self.last.kind]]

    def with_answers(self, answers):
        return replace(self.message, answers=answers)

    def denial(self, rcode):
        """A denial of a name with a single set ever, and the SOA record of the zone."""
        if len(self.versions()) > 1 or len(self.message.answers) > 1:
            return None
        owner = tuple(label.encode() for label in zone_of(self.name).split("."))
        soa = Record(owner, SOA, 1, NEGATIVE, (owner, owner, bytes(20)))
        return self.with_code(rcode, answers=[], authority=[soa])

    def with_code(self, rcode, **more):
        return replace(self.message, header=replace(self.message.header, rcode=rcode), **more)


def another_address(answer):
    last = replace(answer.last, data=(NOWHERE,))
    return answer.with_answers([*answer.message.answers[:-1], last])


def one_record_less(answer):
    rest = answer.message.answers[:-1]
    return answer.with_answers(rest) if rest and rest[-1].kind == answer.last.kind else None


def more_seconds_than_the_zone_gives(answer):
    answers = answer.message.answers
    return answer.with_answers([replace(each, ttl=each.ttl + 2 * DAY) for each in answers])


def a_set_of_hours_ago_as_if_it_were_new(answer):
    ended = [each for each in answer.versions()
             if each.held and each.ended < answer.asked - 2 * HOUR]
    old = [each for each in ended if octets_of(answer.last) not in each.octets]
    rest = [each for each in answer.message.answers if each.owner != answer.last.owner]
    return answer.with_answers(rest + [replace(answer.last, ttl=old[0].held.ttl, data=(data,))
                                       for data in sorted(old[0].octets)]) if old else None


def a_denied_name(answer):
    return answer.denial(NXDOMAIN)


def a_denied_type(answer):
    return answer.denial(NOERROR)


def a_failure(answer):
    return answer.with_code(SERVFAIL, answers=[])


FAULTS = (another_address, one_record_less, more_seconds_than_the_zone_gives,
          a_set_of_hours_ago_as_if_it_were_new, a_denied_name, a_denied_type, a_failure)


def grown(memory, descriptors, wakes):
    """Whether a life of three days with such growth in each hour has a fault."""
    samples = [Sample(HOUR * n, 10**7 + memory * n, 9 + descriptors * n,
                      1000 * n + wakes * n * n, 0) for n in range(72)]
    return any(Life(samples).faults())


GROWTHS = {"memory that grows": (50_000, 0, 0), "descriptors that stay open": (0, 1, 0),
           "a program that wakes up more and more": (0, 0, 10)}


def planted(found, longest, exchanges):
    """How often each fault was planted into a right answer, and how often seen."""
    counts, seen = Counter(), Counter()
    for exchange in exchanges:
        message = read_message(exchange.answer) if exchange.answer else None
        has_address = message and message.answers and message.answers[-1].kind == KINDS["A"]
        if not has_address or is_wrong(found, longest, exchange):
            continue
        answer = Answer(message, found.history, found.clock.of(exchange.asked))
        for fault in FAULTS:
            changed = fault(answer) if counts[fault] < EACH else None
            if changed is not None:
                question = first_question(exchange.question)
                octets = write_message(changed.header, question, changed.answers, changed.authority)
                counts[fault] += 1
                seen[fault] += is_wrong(found, longest, exchange._replace(answer=octets))
    return counts, seen


def is_wrong(found, longest, exchange):
    """Whether the judge finds fault with an exchange, or fails to see why it failed."""
    judge = Judge(found, longest)
    judge.judge(exchange)
    return bool(judge.faults or judge.undue)

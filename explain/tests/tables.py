"""Tests by table: the words for each reason, each code of ICMP, and each end of a try."""
from types import SimpleNamespace

from forwarder_explain.configuration import Configuration
from forwarder_explain.events import Query, Question
from forwarder_explain.judge import NOT_SEEN, OPEN, RIGHT, Verdict
from forwarder_explain.messages import question_of
from forwarder_explain.report import Teller
from forwarder_explain.upstream import UNREACHABLE
from making import asked, peer
from office import FIRST, OFFICE, ONE, QUERY, SECOND
from repository.packing import message

WWW = message(1, QUERY, asked("www.example.com"))
BOTH = "192.0.2.1:53 (silent for 1,000 ms), 192.0.2.2:53 (silent for 1,000 ms)"
REASONS = (
    (0, False, "no query for it is in the capture"), (1, False, "not exactly one question that can be read"),
    (2, False, "an operation that is not served"), (3, False, "a type or class that is not served"),
    (4, False, "no route has a suffix that the name is under"),
    (5, False, "1,024 questions were waiting, as many as may"),
    (6, False, "256 different questions were asked at one time, as many as may"),
    (8, True, f"all 2 tries failed: {BOTH}"), (9, True, f"the deadline of 3,000 ms: {BOTH}"),
    (10, False, "more than 8 aliases, or they lead in a circle"),
    (11, False, "the answer has more than 65,535 octets"),
    (12, True, f"expired data, since all 2 tries failed: {BOTH}"),
    (13, False, "denied by the configuration: route lan"),
)  # fmt: skip
# RFC 792; RFC 1122, 3.2.2.1; RFC 1812, 5.2.7.1.
CODES = (
    (0, "network unreachable"), (1, "host unreachable"), (2, "no such protocol"), (3, "port closed"),
    (4, "too large for the way"), (9, "network forbidden"), (10, "host forbidden"),
    (13, "forbidden by a packet filter"),
)  # fmt: skip
ENDS = (
    (None, 1000, "silent for 1,000 ms"), (None, 500, "no reply"), ("cut", 3, "a cut reply after 3.0 ms"),
    ("malformed", 3, "a reply that can't be read after 3.0 ms"), ("referral", 3, "a referral after 3.0 ms"),
    ("lame", 3, "a reply that neither answers nor denies after 3.0 ms"), ("answered", 12, "answered in 12 ms"),
    ("replied and not taken", 12, "no reply that fits; one came after 12 ms and was not taken"),
    ("not captured whole", 12, "a reply of which the capture lacks a part"),
    ("REFUSED", 3, "REFUSED after 3.0 ms"), ("port closed", 0.4, "port closed after 0.4 ms"),
    ("port closed", 0, "port closed"),
)  # fmt: skip


def teller():
    return Teller(Configuration(OFFICE), SimpleNamespace(restarts=[]))


def question_with(octets, tries, verdict, answered):
    question = Question(0, peer(ONE), peer(ONE), octets, question_of(octets))
    question.client = question.peer
    question.tries, question.verdict, question.answered = tries, verdict, answered
    question.answer = message(1, 0x8180, asked("www.example.com"))
    return question


def tries(*servers):
    """Queries to servers, one a second."""
    port = peer("10.0.0.53:5001")
    found = [Query(1_000_000 * place, "udp", peer(server), port) for place, server in enumerate(servers)]
    for each in found:
        each.asked = question_of(WWW)
    return found


def words_of_reasons():
    """Each reason, its words, and the right words."""
    for reason, has_tries, wanted in REASONS:
        octets = message(1, QUERY, asked("a.lan")) if reason == 13 else WWW
        made = tries(FIRST, SECOND) if has_tries else []
        yield reason, teller().words(question_with(octets, made, Verdict(RIGHT, reason=reason), 2_000_000)), wanted
    question = question_with(WWW, tries(FIRST), Verdict(OPEN, NOT_SEEN, 8), 1_000_000)
    yield "open", teller().words(question), "not all tries are in the capture: 192.0.2.1:53 (silent for 1,000 ms)"


def words_of_codes():
    """Each code of ICMP, its words, and the right words."""
    for code, wanted in CODES:
        yield code, UNREACHABLE.get(code), wanted
    yield "no more", len(UNREACHABLE), len(CODES)


def words_of_ends():
    """Each end of a try, its words, and the right words."""
    for how, lasted, wanted in ENDS:
        (query,) = tries(FIRST)
        if how:
            query.end(how, round(1000 * lasted))
        question = question_with(WWW, [query], Verdict(RIGHT, reason=0), round(1000 * lasted))
        yield how, teller().words(question), f"asked 192.0.2.1:53 ({wanted})"

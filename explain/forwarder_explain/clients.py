"""Questions of clients and their answers."""
import copy
import itertools

from . import messages
from .events import Bounded, Question
from .messages import HEADER, OPERATION
from .times import AT_ONCE

REPEATED = 0x79  # in the third octet of a question: operation and RD, which an answer repeats
MOST_KNOWN = 10_000  # clients of the last time
REFUSED, ENDED, GONE, DROPPED = "refused", "ended", "gone", "dropped"


class Clients:
    """The clients' side. `open` has the questions without an answer, by client and identifier; `last` the last question
    of each client; `connections` the open connections; `tell` is told of each event."""

    def __init__(self, tell):
        self.tell, self.open, self.count = tell, {}, 0
        self.last, self.connections, self.resets = Bounded(MOST_KNOWN), set(), []
        self.left_out = self.refused = 0

    def question(self, moment, client, peer, octets):
        asked = messages.question_of(octets) if len(octets) >= HEADER else None
        question = self.last[client] = Question(moment, client, peer, octets, asked)
        if len(octets) < HEADER or octets[2] >= 128:
            question.over = DROPPED, moment
        else:
            self.open.setdefault((client, octets[:2]), []).append(question)
            self.count += 1
        self.tell.asked(question)

    def close(self, question):
        key = question.client, question.octets[:2]
        waiting = self.open.get(key, ())
        if question in waiting:
            waiting.remove(question)
            self.count -= 1
            if not waiting:
                del self.open[key]

    def answer(self, moment, client, octets, sender):
        """Takes a message to a client, from another address than was asked if `sender` is given."""
        waiting = self.open.get((client, octets[:2]), ())
        fitting = [each for each in waiting if is_to(octets, each)]
        question = next((each for each in fitting or waiting if fitting or each.answer is None), None)
        if len(fitting) > 1:
            question = self.one_of(fitting, moment, octets, sender)
        if question is None:
            self.without_question(moment, client, octets)
        else:
            self.left_out += bool(fitting) and question.answer is not None  # which does not fit
            question.answer, question.answered, question.elsewhere = octets, moment, sender if fitting else None
        if fitting:
            self.close(question)
            self.tell.answered(question)

    def without_question(self, moment, client, octets):
        """Takes an answer without an open question: perhaps the second one to the client's last question."""
        last = self.last.get(client)
        if last is None or last.answer is None or octets[:2] != last.octets[:2] or not is_to(octets, last):
            self.left_out += 1
            return
        again = copy.copy(last)
        again.answer, again.answered, again.told = octets, moment, False
        self.tell.answered_again(again)

    def one_of(self, fitting, moment, octets, sender):
        """The question of an answer, of several equal ones: the youngest for which the answer is right, and none from
        before the service's end if there is another. An older one may have been lost."""
        fitting = [each for each in fitting if each.over is None] or fitting
        fitting.sort(key=lambda each: -each.moment)
        for question in fitting:
            trial = copy.copy(question)
            trial.answer, trial.answered, trial.elsewhere = octets, moment, sender
            if self.tell.judge.judge(trial).kind != "different":
                return question
        return fitting[0]

    def refuse(self, news):
        """The service's machine says by ICMP that nothing listens. The news is of the client's last question if that is
        recent, otherwise of a question that the capture lacks."""
        question = self.last.get(news.source)
        is_it = question is not None and question.moment >= news.moment - AT_ONCE and question.answer is None
        if not is_it or news.octets[:2] not in (b"", question.octets[:2]):
            question = Question(news.moment, news.source, news.source, b"", None)
            self.tell.asked(question)
        question.over = REFUSED, news.moment
        self.tell.upstream.leave(question)
        self.tell.refused(news.moment, "port unreachable")

    def reset(self, connection, moment, from_client, was_open):
        """A connection ends. If the service resets all connections at once, it has ended."""
        self.connections.discard(connection)
        if from_client:
            return
        if not was_open:
            self.refused += 1
            self.tell.refused(moment, "a connection was refused")
            return
        self.resets = [each for each in self.resets if each > moment - AT_ONCE] + [moment]
        if len(self.resets) > 1 and not self.connections:
            self.tell.refused(self.resets[0], "all connections were reset at once")

    def gone(self, connection, moment):
        for question in self.all():
            if question.client is connection:
                question.over = question.over or (GONE, moment)

    def all(self):
        return list(itertools.chain.from_iterable(self.open.values()))


def is_to(octets, question):
    """Whether an answer repeats operation, RD and question, or has none if it is not served (forwarder(8))."""
    if len(octets) < HEADER or (octets[2] ^ question.octets[2]) & REPEATED:
        return False
    if question.asked is None or question.octets[2] & OPERATION:
        return octets[4:6] == b"\0\0"
    written = question.asked.written
    return octets[4:6] == b"\0\1" and octets[HEADER : HEADER + len(written)] == written

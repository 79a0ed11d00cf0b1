"""Explains packets in their order: the fate of each question, as soon as it is known."""
import itertools
from collections import deque

from . import judge
from .clients import ENDED
from .clock import Clock
from .history import History, Restart
from .judge import Failures, Judge, Verdict
from .times import DOUBT, FORGET, HELD, LATE_REPLY, MILLISECOND, UNANSWERED
from .traffic import Traffic
from .upstream import ANSWERED, UNTAKEN, Upstream

MOST_PENDING = 40_000  # questions that wait for their line
PACKETS_LATER = 200  # past the deadline, before a question has no answer: the clock may just have been set


class Explaining:
    """Takes packets by time. Calls `settled` with each question once its fate is known, in the order of the questions,
    or at once if `is_live`, and `count_query` with each query whose time is over. `pending` are questions without a
    line, `held` those whose answer seems different or doubtful: later packets may say more."""

    def __init__(self, configuration, begins, is_lossy, settled, is_live=False):
        self.settled, self.is_live, self.pending = settled, is_live, deque()
        self.clock = Clock(configuration.limits["ask_ms"] * MILLISECOND)
        self.history = History(configuration, begins, is_lossy)
        self.upstream = Upstream(configuration, self.history, self.clock, self.asked_of)
        self.traffic = Traffic(configuration, self, self.upstream, self.history)
        failures = Failures(configuration, self.history, self.traffic.clients, self.upstream)
        self.judge = Judge(configuration, self.history, self.clock, failures)
        self.judge.unseen, self.judge.sides = self.traffic.unseen, self.traffic.sides
        self.due, self.held, self.sent = deque(), deque(), deque()
        self.now = self.forgotten = begins
        self.count_query = self.current = None

    def close(self, question):
        """Nothing more is to be known of a question."""
        question.told = True
        if self.is_live:
            self.tell(question)
        while self.pending and self.pending[0].told:
            self.tell(self.pending.popleft())

    def tell(self, question):
        self.settled(question)
        question.tries = question.wanted = ()  # which are needed no more
        question.answer = question.answer and b""

    # What comes.
    def take(self, packet):
        moment = packet.moment
        if self.clock.moved:
            moment += self.clock.moved
            packet = packet._replace(moment=moment)
        if moment > self.now:
            self.clock.pass_on(moment)
            if moment - self.now > LATE_REPLY:  # perhaps the clock was set: queries are not forgotten yet
                self.forgotten = moment + 2 * self.clock.ask
            self.now = moment
        self.traffic.take(packet)
        now = self.now  # which may just have been moved
        if self.due and self.due[0][0] < now or self.held and self.held[0][0] < now:
            self.pass_time(now)
        if now - self.forgotten > FORGET:
            self.traffic.forget(now)
            self.upstream.forget(now)
            self.count_queries(now - self.clock.ask - UNANSWERED)
            self.forgotten = now

    def count_queries(self, since):
        while self.sent and self.sent[0].moment < since:
            self.count_query(self.sent.popleft())

    def asked(self, question):
        if self.upstream.record:
            self.upstream.record.question(question)
        if not self.is_live:
            self.pending.append(question)
        asked = question.asked
        if question.over is None and asked is not None and question.octets[2] & 0x78 == 0:
            if self.history.configuration.route_of(asked.key) is not None:
                self.wait(question, asked)
        until = question.moment + self.history.configuration.limits["deadline_ms"] * MILLISECOND + UNANSWERED
        self.due.append([until, question, PACKETS_LATER])
        if len(self.pending) > MOST_PENDING:  # the oldest keeps too many others from having their lines
            oldest = self.pending[0]
            self.held = deque(each for each in self.held if each[1] is not oldest)
            (self.without_answer if oldest.verdict is None else self.close)(oldest)

    def wait(self, question, asked):
        others = self.upstream.waiting.get(asked.same)
        self.upstream.want(question, asked.key, asked.kind, asked.klass, question.moment)
        if others and len(others) > 1:
            question.others = tuple(each.peer for each in others if each is not question)[-3:]
            for each in others[-4:-1]:
                if len(each.others) < 4:
                    each.others += (question.peer,)

    def asked_of(self, query):
        if query.cut is None or query.identifier is None:  # it is not counted yet
            self.sent.append(query)
        if self.upstream.record and not query.is_lacked:
            self.upstream.record.query(query)

    def answered(self, question):
        self.upstream.leave(question)
        if question.over is not None and question.over[0] is ENDED:
            self.went_on(question)
        self.history.answered(question.answered)
        self.upstream.seen, self.current = question.answered, question
        late = question.tries[-1].late if question.tries else None
        question.verdict = self.judge.judge(question)
        if self.upstream.record:
            self.upstream.record.answer(question)
        if late and question.verdict.kind == judge.DIFFERENT and self.has_stepped(question.tries[-1]):
            question.verdict = self.judge.judge(question)
        self.look_at(question, question.verdict)

    def answered_again(self, question):
        """Takes a second answer to a question, which `question` is a copy of."""
        kind, why = (judge.OPEN, judge.LOSSY) if self.history.is_lossy else (judge.DIFFERENT, judge.AGAIN)
        question.verdict = Verdict(kind, why)
        if not self.is_live:
            self.pending.append(question)
        self.close(question)

    def look_at(self, question, verdict):
        """Takes the verdict on an answer, which may have to wait for later packets."""
        if not is_doubtful(verdict):
            self.take_used(question, verdict)
            self.close(question)
            return
        self.held.append((self.now + (self.clock.ask + DOUBT if self.is_live else HELD), question))
        query = question.tries[-1] if question.tries else None
        if verdict.why == judge.NOT_TAKEN and query.reply:
            query.reply.is_untaken, query.reply.doubt, query.how = True, question, UNTAKEN
        if verdict.shift:
            reply = next((each.reply for each in verdict.used if each and each.reply), None)
            if step := self.clock.suspect(question, reply, verdict.shift):
                self.move(*step)

    def take_used(self, question, verdict):
        """Notes the data in an answer: the last moment at which their reply was read, and how the clocks agree."""
        for each in verdict.used:
            if each is None:
                continue
            self.history.touch(each)
            reply = each.reply
            if reply is None:
                continue
            if reply.taken is None and reply.moment >= question.moment:
                reply.taken = question.answered
            if reply.doubt is not None and verdict.parts:
                self.refute(reply)
        if verdict.kind == judge.RIGHT and verdict.shift:
            self.clock.agree(verdict.shift, verdict.used[-1].reply.moment, question.answered)

    def refute(self, reply):
        """An answer has the content of a reply that a failure left unused: the failure is judged again."""
        question, reply.doubt, reply.is_untaken = reply.doubt, None, False
        if not question.told:
            question.tries[-1].how, reply.taken = ANSWERED, reply.taken or question.answered
            question.verdict = self.judge.judge(question)

    # The clock was set.
    def has_stepped(self, query):
        """Whether a late reply shows that the clock was set forward; then all is moved, and judged again."""
        octets, moment = query.late
        is_last = self.upstream.latest.get(query.asked.same) is query and not query.reply
        step = self.clock.step_within(query, moment) if is_last else None
        if not step:
            return False
        self.move(*step)
        query.unfit = tuple(each for each in query.unfit if each[0] != query.late[1])
        query.late = None
        self.upstream.fitting(moment + step[1], query, octets)
        return True

    def move(self, since, by):
        """Moves all times from a moment on, as the clock was set there, and judges the held questions again."""
        self.clock.moved += by
        self.now += by
        self.forgotten = self.now
        for each, names in self.timed():
            for name in names:
                moment = getattr(each, name)
                if moment is not None and moment >= since:
                    setattr(each, name, moment + by)
        self.due = deque([at + by if each.moment >= since + by else at, each, left] for at, each, left in self.due)
        self.judge_again()

    def timed(self):
        """All remembered objects with moments, each once, with the names of its moments."""
        pending = self.pending
        waiting = itertools.chain(pending, self.traffic.clients.all(), (each for _, each in self.held), [self.current])
        occurrences = itertools.chain.from_iterable(self.history.slots.values())
        queries = itertools.chain(self.upstream.latest.values(), (query for each in pending for query in each.tries))
        for found, names in (
            (waiting, ("moment", "answered")),
            (queries, ("moment", "ended")),
            ((each.reply for each in occurrences if each.reply), ("moment", "taken")),
            (self.traffic.connections.values(), ("last",)),
        ):
            for each in {id(each): each for each in found}.values():
                yield each, names

    def judge_again(self):
        waiting, self.held = self.held, deque()
        for until, question in waiting:
            if question.verdict.why not in (judge.NOT_TAKEN, judge.UNEQUAL):
                question.verdict = self.judge.judge(question)
            if is_doubtful(question.verdict):
                self.held.append((until, question))
            else:
                self.take_used(question, question.verdict)
                self.close(question)

    # Restarts.
    def refused(self, moment, shown):
        restarts = self.history.restarts
        if restarts and restarts[-1].begun is None:
            restarts[-1].until = moment
            return
        waiting = [each for each in self.traffic.clients.all() if each.over is None and each.moment < moment]
        for question in waiting:
            question.over = ENDED, moment
        restarts.append(Restart(moment, moment, shown, waiting))

    def went_on(self, question):
        """The service answers a question from before its seeming end: it went on."""
        for restart in self.history.restarts:
            if question in restart.waiting:
                self.history.restarts.remove(restart)
                for each in restart.waiting:
                    if each.over and each.over[0] is ENDED:
                        each.over = None
                self.judge_again()
                return

    # What is known.
    def pass_time(self, now, is_quiet=False):
        """Settles questions that have waited long, and for some packets: the clock may just have been set."""
        while self.due and self.due[0][0] < now:
            _, question, left = self.due[0]
            is_open = not question.told and question.verdict is None
            if is_open and left > 0 and not is_quiet:
                self.due[0][2] -= 1
                break
            self.due.popleft()
            if is_open:
                self.without_answer(question)
        while self.held and self.held[0][0] < now:
            self.close(self.held.popleft()[1])

    def without_answer(self, question):
        self.upstream.leave(question)
        self.traffic.clients.close(question)
        if question.answer is not None:
            question.verdict = self.judge.judge(question)
        else:
            question.verdict = Verdict(judge.RIGHT) if question.over else Verdict(judge.OPEN, "no answer")
        self.close(question)

    def end(self):
        self.traffic.forget(self.now + 10 * HELD)
        self.judge_again()
        self.pass_time(float("inf"), True)
        self.count_queries(float("inf"))


def is_doubtful(verdict):
    """Whether later packets may say more of an answer."""
    return verdict.kind == judge.DIFFERENT or verdict.why == judge.NOT_TAKEN

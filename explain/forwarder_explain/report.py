"""The fate of a question in words: its queries, and the ground of its answer. Lines, counts, objects for programs."""
import json
from collections import Counter

from . import judge, messages
from .clients import DROPPED, ENDED, GONE, REFUSED
from .content import NAME_ERROR
from .messages import HEADER
from .times import MILLISECOND, SECOND, TICK
from .upstream import ANSWERED, CUT, LAME, MALFORMED, MISSING, REFERRAL, UNTAKEN
from .wording import clock, code_text, counted, duration, message_text, server_text, shown

VERSION = 2  # of the objects of --json
ENDS = {
    ANSWERED: "answered in {} ms",
    CUT: "a cut reply after {} ms",
    MALFORMED: "a reply that can't be read after {} ms",
    REFERRAL: "a referral after {} ms",
    LAME: "a reply that neither answers nor denies after {} ms",
    UNTAKEN: "no reply that fits; one came after {} ms and was not taken",
    MISSING: "a reply of which the capture lacks a part",
}
MOST_UNFIT = 3  # kinds of replies that are named
MOST_OTHERS = 3  # clients that are named
PLAIN = {
    1: "not exactly one question that can be read", 2: "an operation that is not served",
    3: "a type or class that is not served", 10: "more than 8 aliases, or they lead in a circle",
    11: "the answer has more than 65,535 octets",
}  # fmt: skip
NO_QUERY = "no query for it is in the capture"
WITHOUT_ANSWER = {
    DROPPED: DROPPED,
    ENDED: "no answer: the service ended first",
    GONE: "no answer: the connection ended first",
    REFUSED: "refused: nothing listened",
    None: "no answer was captured",
}
FILTERED = "refused: by a packet filter, since the service went on"


class Teller:
    """Puts fates into words."""

    def __init__(self, configuration, history):
        self.configuration, self.history, self.limits = configuration, history, configuration.limits
        self.ask = self.limits["ask_ms"] * MILLISECOND

    def words(self, question):
        verdict = question.verdict
        said = self.without_answer(question) if question.answer is None else self.by_reason(question, verdict)
        if question.answer and messages.is_cut(question.answer) and verdict.reason in (0, 12):
            said += "; cut, since it has more than 512 octets"
        if question.others and question.tries:
            peers = list(dict.fromkeys(map(shown, question.others)))
            more = " and more" if len(question.others) > MOST_OTHERS else ""
            said += f"; {', '.join(peers[:MOST_OTHERS])}{more} asked the same meanwhile"
        return said

    def without_answer(self, question):
        said = self.outcome(question)
        if said == DROPPED:
            return said + (": fewer than 12 octets" if len(question.octets) < HEADER else ": a response")
        return f"{said}; {self.asked(question)}" if question.tries else said

    def outcome(self, question):
        over, moment = question.over or (None, None)
        has_ended = any(each.since <= moment <= each.until for each in self.history.restarts if moment)
        return WITHOUT_ANSWER[over] if over is not REFUSED or has_ended else FILTERED

    def by_reason(self, question, verdict):
        reason, limits = verdict.reason, self.limits
        if verdict.why == judge.AGAIN:
            return "answered before"
        if reason in PLAIN:
            return PLAIN[reason]
        if reason == 5:
            return f"{limits['questions']:,} questions were waiting, as many as may"
        if reason == 6:
            return f"{limits['inquiries']:,} different questions were asked at one time, as many as may"
        if reason == 8:
            return self.failed(question, verdict)
        if reason == 9:
            tries = self.tries(question)
            return f"the deadline of {limits['deadline_ms']:,} ms" + (f": {tries}" if tries else "")
        if reason == 4:
            said = "no route has a suffix that the name is under"
        elif reason == 12:
            before = " from before the capture" if verdict.why == judge.BEFORE else ""
            said = f"expired data{before}, since {self.failed(question, verdict)}"
        elif reason == 13:
            route = self.configuration.route_of(last_name(question))
            said = f"denied by the configuration: route {route.shown if route else ''}"
        else:
            said = self.answered(question, verdict)
        if found := aliases_of(question):
            said += f"; {'1 alias' if len(found) == 1 else f'{len(found)} aliases'} to {messages.text(found[-1])}"
        return said

    def failed(self, question, verdict):
        tries, listed = self.limits["tries"], self.tries(question)
        if verdict.why == judge.NOT_SEEN:
            return f"not all tries are in the capture: {listed}" if listed else NO_QUERY
        said = f"all {tries} tries failed" if tries > 1 else "the only try failed"
        before = max((each.number for each in question.tries), default=0) - len(question.tries)
        if before > 0 and question.joined:
            said += f", the first {'one' if before == 1 else before} before this question joined"
        return f"{said}: {listed}" if listed else said

    def answered(self, question, verdict):
        replies = [each.reply for each in verdict.used if each is not None]
        is_cached = bool(replies) and all(reply is None or reply.moment < question.moment for reply in replies)
        if is_cached and verdict.kind != judge.DIFFERENT:
            return self.from_cache(question, verdict.used[-1])
        return self.asked(question) if question.tries else NO_QUERY

    def asked(self, question):
        tries = self.tries(question)
        joined = f"joined a query under way {'' if tries.startswith('for ') else 'to '}"
        return (joined if question.joined else "asked ") + tries

    @staticmethod
    def from_cache(question, used):
        parts = question.verdict.parts
        left = parts[-1].seconds if parts and parts[-1].rows else max(0, used.ends()[1] - question.answered) // SECOND
        if used.reply is None:
            return f"from the cache (from before the capture, {left:,} s left)"
        query = used.reply.query
        origin = f"asked of {server_text(query)} at {clock(query.moment)}, {left:,} s left"
        if used.form == NAME_ERROR and query.asked.key != last_name(question):
            return f"from the cache: {messages.text(query.asked.key)} is denied, and so is what is below it ({origin})"
        return f"from the cache ({origin})"

    def tries(self, question):
        name, parts, answered = question.asked.key if question.asked else b"", [], []
        for query, later in with_later(question):
            said = ""
            if query.asked and query.asked.key != name:
                name = query.asked.key
                said = f"for {messages.text(query.asked.name)} "
            parts.append(f"{said}{server_text(query)} ({self.how(question, query, later)[1]})")
            if query.is_shared and query.how is ANSWERED:
                answered.append(query.asked.same)
        is_double = len(set(answered)) < len(answered)
        more = "; two were open at once: one is another program's, or the service was slow" if is_double else ""
        return ", ".join(parts) + more

    def how(self, question, query, later):
        """The end of a query in a word, and in a line; `later` is the next query for the same question, if any."""
        until = later.moment if later else question.answered
        if query.how is not None and (question.answered is None or query.ended <= question.answered):
            lasted, how = (query.reply.moment if query.reply else query.ended) - query.moment, query.how
            after = " after {} ms" if lasted else ""
            return how, ENDS.get(how, how + after).format(duration(lasted))
        unfit = [why for moment, why in query.unfit if question.answered is None or moment <= question.answered]
        if unfit:
            return "unfit", f"no reply that fits; {unfit_text(unfit)}"
        if any(query.moment < each.since <= (until or each.since) for each in self.history.restarts):
            return "ended", "given up when the service ended"
        lasted, text = (until or query.moment) - query.moment, duration((until or query.moment) - query.moment)
        if lasted >= self.ask - TICK:
            return "silent", f"silent for {text} ms"
        if later:
            return "unseen", f"given up after {text} ms, or another program's"
        is_deadline = until is not None and question.verdict.reason == 9
        return ("deadline", f"silent for {text} ms, up to the deadline") if is_deadline else ("open", "no reply")


def with_later(question):
    """Each try, and the next one for the same question, if any."""
    for place, query in enumerate(question.tries):
        of = query.asked and query.asked.same
        yield query, next((each for each in question.tries[place + 1 :] if each.asked and each.asked.same == of), None)


def unfit_text(unfit):
    """The replies that were not used, by kind: one came from 10.0.0.11:53, 2 with another identifier."""
    parts = [f"{'one' if count == 1 else f'{count:,}'} {why}" for why, count in Counter(unfit).items()]
    parts[0] = parts[0].replace(" ", " came ", 1)
    if len(parts) > MOST_UNFIT:
        parts[MOST_UNFIT:] = [f"{len(parts) - MOST_UNFIT:,} more"]
    return ", ".join(parts)


def aliases_of(question):
    return [each.rows[0] for each in question.verdict.parts if each.kind == messages.CNAME != question.asked.kind]


def last_name(question):
    found = aliases_of(question)
    return found[-1].lower() if found else question.asked.key


class Row:
    """A question with its fate, in words made on demand."""

    __slots__ = ("question", "teller", "verdict", "answer", "took")

    def __init__(self, question, teller):
        self.question, self.teller, self.verdict, self.answer = question, teller, question.verdict, question.answer
        # Microseconds from the question to its answer, if any.
        self.took = question.answered - question.moment if question.answer is not None else None

    @property
    def code(self):
        return code_text(self.answer) if self.answer is not None else "-"

    @property
    def asked(self):
        question, asked = self.question, self.question.asked
        name, kind = (messages.text(asked.name), messages.kind_text(asked.kind, asked.klass)) if asked else ("-", "-")
        return shown(question.peer), "tcp" if question.is_over_tcp() else "udp", name, kind

    def is_refused(self):
        return self.answer is None and self.question.over is not None and self.question.over[0] is REFUSED

    def outcome(self):
        return self.teller.outcome(self.question)

    def is_different(self):
        return self.verdict.kind == judge.DIFFERENT

    def is_asked(self):
        """Whether the data of an answer came while the question waited."""
        used = [each for each in self.verdict.used if each is not None]
        return not used or any(each.reply and each.reply.moment >= self.question.moment for each in used)

    def failed(self):
        """Whether `--failures` shows it."""
        if self.question.over and self.question.over[0] is DROPPED:
            return False
        has_content = self.answer and messages.code(self.answer) in (judge.NOERROR, judge.NXDOMAIN)
        return not has_content or self.is_different() or self.verdict.reason == 12

    def line(self):
        took = f"{duration(self.took)} ms" if self.took is not None else "-"
        asked = " ".join(self.asked)
        return f"{clock(self.question.moment)} {asked} {self.code} {took}: {self.teller.words(self.question)}"

    def differs(self):
        yield f"    DIFFERENT: {self.verdict.why}"
        yield f"    captured  {message_text(self.answer)}"
        yield f"              {self.answer.hex()}"

    def tries(self):
        for query, later in with_later(self.question):
            yield query, self.teller.how(self.question, query, later)[0]

    def object(self):
        verdict = self.verdict
        said = {
            "time": self.question.moment / SECOND,
            **dict(zip(("client", "transport", "name", "type"), self.asked)),
            "code": self.code,
            "milliseconds": self.took / MILLISECOND if self.took is not None else None,
            "verdict": verdict.kind,
            "why": verdict.why,
            "reason": verdict.reason,
            "words": self.teller.words(self.question),
            "tries": [
                {
                    "name": messages.text(query.asked.name) if query.asked else "-",
                    "server": shown(query.server),
                    "transport": query.transport,
                    "milliseconds": (query.ended - query.moment) / MILLISECOND if query.ended else None,
                    "how": how,
                    **({"unfit": [why for _, why in query.unfit]} if query.unfit else {}),
                }
                for query, how in self.tries()
            ],
        }
        if self.is_different():
            said["captured"] = self.answer.hex()
        return said


class Summary:
    """The end of a run: the counts of a Tally, and remarks."""

    def __init__(self, tally, explaining):
        self.tally, self.refused = tally, explaining.traffic.clients.refused
        history = explaining.history
        self.restarts = sorted([*history.restarts, *history.told], key=lambda each: each.since)
        self.steps, self.side = explaining.clock.steps, explaining.traffic.sides.missing()

    def verdict(self):
        tally, kinds = self.tally, self.tally.kinds
        asked = f"{counted(tally.questions, 'question')}, {counted(tally.answers, 'answer')}"
        open_ = f"{kinds[judge.OPEN]:,} open, " if kinds[judge.OPEN] else ""
        yield f"{asked}: {kinds[judge.RIGHT]:,} right, {open_}{kinds[judge.DIFFERENT]:,} different"
        for why, count in tally.open.most_common():
            yield f"{count:,} open: {why}" + (f", {self.side}" if self.side and why == judge.BEFORE else "")
        for over, count in tally.unanswered.most_common():
            yield f"{counted(count, 'question')} without an answer: {over.removeprefix('no answer: ')}"
        if self.refused:
            yield f"{counted(self.refused, 'connection')} refused: nothing listened"
        yield from map(restart_text, self.restarts)
        for (server, why), count in tally.lacked.most_common():
            yield f"{counted(count, 'query')} that the capture lacks did not reach {server}: {why}"
        unwanted = "another program's, or of a question that the capture lacks"
        more = f", of which no open question wants {tally.other_queries:,}: {unwanted}" if tally.other_queries else ""
        yield f"{counted(tally.queries, 'query')} to servers{more}"
        for query in tally.others:
            yield f"    {clock(query.moment)} {server_text(query)} was asked for {query.asked.text()}"
        if tally.other_queries > len(tally.others):
            yield f"    and {tally.other_queries - len(tally.others):,} more"

    def tables(self):
        tally = self.tally
        yield from table("reason", ("questions", "median ms", "99 % ms"), tally.by_reason())
        yield from table("server", ("queries", "share", "median ms", "99 % ms", "failed", "how"), tally.by_server())
        yield from table("client", ("questions", "from the cache", "failed", "median ms"), tally.by_client())
        yield from ("slowest", *(f"  {line}" for _, line in tally.slow), "")

    def object(self):
        tally = self.tally
        return {
            "summary": {
                "version": VERSION,
                "questions": tally.questions,
                "answers": tally.answers,
                **{kind: tally.all[kind] for kind in (judge.RIGHT, judge.OPEN, judge.DIFFERENT)},
                "unanswered": tally.unanswered.total(),
                "refused": tally.refused,
                "refused_connections": self.refused,
                "queries": tally.queries,
                "other_queries": tally.other_queries,
                "begun_anew_by": [each.begun / SECOND for each in self.restarts if each.begun is not None],
                "clock_steps": [[-each.by / SECOND, each.at / SECOND] for each in self.steps],
            }
        }


def restart_text(restart):
    if restart.begun is None:
        return f"the service had ended by {clock(restart.since)}: {restart.shown}"
    return f"the service has begun anew by {clock(restart.begun)}: {restart.shown} at {clock(restart.since)}"


def table(title, heads, rows):
    """The lines of a table, each column as wide as its longest cell; text is at the left, numbers at the right."""
    cells = [(title, *heads), *((name, *values) for name, values in rows)]
    if len(cells) == 1:
        return
    widths = [max(len(str(cell)) for cell in column) for column in zip(*cells)]
    for row in cells:
        sides = ("<" if head in (title, "how") else ">" for head in cells[0])
        yield "  ".join(f"{cell:{side}{width}}" for cell, side, width in zip(row, sides, widths)).rstrip()
    yield ""


def written(value):
    return json.dumps(value, ensure_ascii=False)

"""Counts of questions and queries for a summary. Their size does not grow with the number of questions."""
from collections import Counter, defaultdict

from . import judge
from .times import MILLISECOND
from .upstream import ANSWERED, REPLIED
from .wording import address_text, duration, server_text

REASONS = (
    "answered", "not one question", "operation not served", "type or class not served", "no route", "questions full",
    "inquiries full", "no port", "all tries failed", "deadline", "aliases", "too large", "expired data",
    "denied by the configuration",
)  # fmt: skip
MOST_SHOWN, MOST_CLIENTS, MOST_SLOW = 10, 20, 5  # of queries that no question wants, of clients, of slow questions
MOST_COUNTED = 10_000  # clients with counts of their own, and ways in which queries to a server failed
OTHERS, NUMBER = "others", lambda each: -each[1].number  # the latter is the order of groups
FINE, FINEST = 9_950, 100  # microseconds: shorter times are shown, and so counted, by the finest unit


class Times:
    """Times in microseconds, counted together if they are shown alike."""

    def __init__(self):
        self.counts, self.number = {}, 0

    def add(self, micros):
        unit = FINEST * round(micros / FINEST) if micros < FINE else MILLISECOND * round(micros / MILLISECOND)
        self.counts[unit] = self.counts.get(unit, 0) + 1
        self.number += 1

    def spread(self):
        if not self.number:
            return "-", "-"
        in_order = sorted(self.counts.items())
        return self.at(in_order, self.number // 2), self.at(in_order, min(self.number - 1, self.number * 99 // 100))

    @staticmethod
    def at(in_order, place):
        for micros, count in in_order:
            place -= count
            if place < 0:
                return duration(micros)


class Group:
    """Questions of a reason or client, or queries to a server."""

    def __init__(self):
        self.number = self.cached = self.failed = 0
        self.times, self.how = Times(), Counter()

    def fail(self, how):
        self.failed += 1
        self.how[how if how in self.how or len(self.how) < MOST_COUNTED else OTHERS] += 1


class Tally:
    """All counts of a run: `kinds` of answers by verdict, `all` of questions, `open` of open answers by reason."""

    def __init__(self):
        self.questions = self.answers = self.refused = self.queries = self.other_queries = 0
        self.kinds, self.all, self.open, self.unanswered = Counter(), Counter(), Counter(), Counter()
        self.others, self.slow, self.lacked = [], [], Counter()
        self.reasons, self.servers, self.clients = (defaultdict(Group) for _ in range(3))

    def add(self, row):
        verdict, took, reason = row.verdict, row.took, reason_of(row)
        self.questions += 1
        self.all[verdict.kind] += 1
        if took is None:
            self.unanswered[row.outcome()] += 1
            self.refused += row.is_refused()
        else:
            self.answers += 1
            self.kinds[verdict.kind] += 1
            if verdict.kind == judge.OPEN:
                self.open[verdict.why if len(self.open) < MOST_SHOWN else OTHERS] += 1
        client = address_text(row.question.peer[0])
        client = client if client in self.clients or len(self.clients) < MOST_COUNTED else OTHERS
        has_failed = row.failed()
        for group in (self.reasons[reason], self.clients[client]):
            group.number += 1
            group.cached += reason == (0, False)
            group.failed += has_failed
            if took is not None:
                group.times.add(took)
        if took is not None and (len(self.slow) < MOST_SLOW or took > self.slow[-1][0]):
            self.slow = sorted([*self.slow, (took, row.line())], key=lambda each: -each[0])[:MOST_SLOW]

    def add_query(self, query):
        """Counts a query whose time is over."""
        if query.is_lacked:
            self.lacked[server_text(query), query.how] += 1
            return
        self.queries += 1
        if not query.is_wanted and query.asked:
            self.other_queries += 1
            if len(self.others) < MOST_SHOWN:
                self.others.append(query)
        group = self.servers[server_text(query)]
        group.number += 1
        if query.how in REPLIED:
            group.times.add((query.reply.moment if query.reply else query.ended) - query.moment)
        if query.how != ANSWERED:
            group.fail(query.how or (f"replied {query.unfit[0][1]}" if query.unfit else "silent"))

    def by_reason(self):
        for reason, group in sorted(self.reasons.items()):
            yield reason_text(*reason), (f"{group.number:,}", *group.times.spread())

    def by_server(self):
        total = sum(group.number for group in self.servers.values())
        for server, group in sorted(self.servers.items(), key=NUMBER):
            share = f"{100 * group.number / total:.0f} %"
            how = ", ".join(f"{count} {word}" for word, count in group.how.most_common()) or "-"
            yield server, (f"{group.number:,}", share, *group.times.spread(), f"{group.failed:,}", how)

    def by_client(self):
        for client, group in sorted(self.clients.items(), key=NUMBER)[:MOST_CLIENTS]:
            cached = f"{100 * group.cached / group.number:.0f} %"
            yield client, (f"{group.number:,}", cached, f"{group.failed:,}", group.times.spread()[0])


def reason_of(row):
    """The reason of a row, -1 if it has none; and whether a server was asked for an answer."""
    reason = row.verdict.reason if row.verdict.reason is not None else -1
    return reason, reason == 0 and row.is_asked()


def reason_text(reason, is_asked):
    if reason == 0:
        return f"0 {REASONS[0]} {'by a server' if is_asked else 'from the cache'}"
    return f"{reason} {REASONS[reason]}" if reason > 0 else "- no reason is shown"

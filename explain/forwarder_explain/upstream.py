"""Queries to servers and their replies."""
from . import content, messages
from .events import Bounded, Query, Reply
from .messages import HEADER, OPERATION
from .times import CUT_WAITS, LATE_REPLY, MILLISECOND, ORDER, TICK
from .wording import duration, shown

QUERY_FLAGS = b"\x01\0\0\1\0\0\0\0\0\0"  # RD, and one question, as the forwarder asks
MOST_PATHS, MOST_FORGED = 20_000, 100_000  # ways of queries, and records of dropped messages, that are remembered
ANSWERED, CUT, MALFORMED, REFERRAL, LAME = "answered", "cut", "malformed", "referral", "lame"
UNTAKEN, MISSING = "replied and not taken", "not captured whole"
REPLIED = {ANSWERED, CUT, MALFORMED, REFERRAL, LAME, UNTAKEN, *messages.CODES}
UNREACHABLE = {  # by the codes of ICMP (RFC 792; RFC 1122, 3.2.2.1; RFC 1812, 5.2.7.1)
    0: "network unreachable", 1: "host unreachable", 2: "no such protocol", 3: "port closed",
    4: "too large for the way", 9: "network forbidden", 10: "host forbidden", 13: "forbidden by a packet filter",
}  # fmt: skip


class Upstream:
    """The servers' side. `waiting` has the questions that wait for each name and type, `latest` the last query for it,
    `open` the queries whose time is not over, `history` the content of replies. The service last sent a packet at
    `seen`, and a query to each server at `sent`. `record` keeps all for a script, if one is wanted."""

    def __init__(self, configuration, history, clock, tell):
        self.configuration, self.history, self.waiting = configuration, history, {}
        self.clock, self.tell = clock, tell
        self.ask = configuration.limits["ask_ms"] * MILLISECOND
        self.paths, self.latest, self.open, self.cuts = Bounded(MOST_PATHS), Bounded(MOST_PATHS), {}, []
        self.foreign, self.seen, self.record, self.sent = 0, 0, None, {}

    # Queries.
    def datagram(self, moment, source, target, octets):
        asked, query = asked_in(octets), None
        if asked is None:
            self.foreign += 1
        else:
            query = Query(moment, "udp", target, source, octets[:2], asked)
        self.paths["udp", source] = query
        if query is not None:
            self.begin(query)
            self.history.ask(query)

    def begin(self, query):
        key = query.asked.same
        waiting, before = self.waiting.get(key, ()), self.latest.get(key)
        query.is_wanted = bool(waiting)
        if before is not None and waiting:
            self.follow(before, query, waiting)
        if waiting and not query.is_shared:
            self.history.asked.add(hash(key))
        for question in list(waiting):
            question.tries.append(query)
            self.want_alone(question, key)
        self.open[id(query)] = query
        self.seen = query.moment
        if not query.is_lacked:
            self.sent[query.server] = query.moment
        self.latest[key] = query
        self.tell(query)

    def want_alone(self, question, key):
        """A query for a name leaves: so no alias of the name is cached, and its target is not yet wanted."""
        place = question.wanted.index(key) + 1
        leads = {each.reply.leads for each in question.tries if each.reply}
        if place < len(question.wanted) and question.wanted[place][0] not in leads:
            self.leave(question, place)
            del question.wanted[place:]
            question.tries = [each for each in question.tries if each.asked.same in question.wanted]

    def leave(self, question, place=0):
        """A question no longer waits for the names that it wants from a place on."""
        for key in set(question.wanted[place:]) - set(question.wanted[:place]):
            waiting = self.waiting.get(key)
            if waiting and question in waiting:
                waiting.remove(question)
                if not waiting:
                    del self.waiting[key]

    def follow(self, before, query, waiting):
        """A query follows another for the same question: the next try of an inquiry, or another program's."""
        passed = query.moment - before.moment
        since = min(each.moment for each in [each for each in waiting if each.over is None] or waiting)
        if before.is_open(query.moment, self.ask - TICK) and before.transport == query.transport:
            before.is_shared = query.is_shared = True
            self.history.asked.discard(hash(query.asked.same))
        reply = before.reply
        if reply is not None and reply.taken is None and not reply.leads and passed >= self.ask - TICK:
            if since <= reply.moment < query.moment - ORDER:
                reply.is_untaken, before.how = True, UNTAKEN
        is_over = reply is not None and not reply.is_untaken
        if since <= before.moment and not is_over and not query.is_shared:
            query.number = before.number + 1

    def asking(self, now):
        while self.open:
            key, query = next(iter(self.open.items()))
            if query.is_open(now, self.ask):
                break
            del self.open[key]
        return sum(each.is_open(now, self.ask) for each in self.open.values())

    def end(self, query, how, moment):
        if query.how is None:
            query.end(how, moment)
            if how is MISSING and query.asked:
                self.history.missing.add(query.asked.same)
        self.open.pop(id(query), None)

    # Replies.
    def reply(self, moment, query, source, octets, is_cut):
        if is_cut and source == query.server and len(octets) >= HEADER:
            self.end(query, MISSING, moment)
            return
        why = strangeness(query, source, octets)
        if not why and query.how is not None:
            why = "after another end"
        elif not why and self.is_late(query, moment):
            why = f"after {duration(moment - query.moment)} ms"
            query.late = octets, moment
        if self.record:
            self.record.reply(query, moment, source, octets, not why)
        if why:
            query.unfit += ((moment, why),)
            self.drop(octets, f"it came {why}")
        else:
            self.fitting(moment, query, octets)

    def is_late(self, query, moment):
        """Whether packets show that a reply came after the time of its query: the next query left, or the service was
        seen after that time. A gap in which the clock may have been set is noted."""
        if moment - query.moment < self.ask + TICK:
            return False
        if self.latest.get(query.asked.same) is not query or self.seen >= query.moment + self.ask:
            return True
        self.clock.hint(query.moment, moment)
        return False

    def fitting(self, moment, query, octets):
        how, code, found = ANSWERED, messages.code(octets), None
        if messages.is_cut(octets):
            how = CUT
        elif code not in (0, 3):
            how = messages.CODES[code]
        else:
            try:
                found = content.Walking(self.configuration, octets, query.asked).walk()
            except messages.Malformed:
                how = MALFORMED
        if found is content.LAME:
            how = LAME if octets[6:8] != b"\0\0" else REFERRAL
        self.end(query, how, moment)
        if how is CUT:
            self.cuts = [each for each in self.cuts if each.ended > moment - CUT_WAITS] + [query]
        elif how is ANSWERED:
            self.accept(query, Reply(query, moment, found.pieces, found.leads_to and found.leads_to.lower()))

    def accept(self, query, reply):
        """Takes the content of a reply, and has the questions wait for the name to which it leads."""
        query.reply = reply
        if self.record:
            self.record.lead(reply)
        is_sure = query.is_wanted and not query.is_shared
        for piece in reply.pieces:
            self.history.put(piece, reply, is_sure)
        if reply.leads:
            for question in list(self.waiting.get(query.asked.same, ())):
                self.want(question, reply.leads, query.asked.kind, query.asked.klass, reply.moment)

    def want(self, question, name, kind, klass, moment):
        """A question waits for another name, too, and for the names to which cached aliases lead from there."""
        for _ in range(content.MOST_ALIASES + 1):
            key = name, kind, klass
            again = key in question.wanted
            question.wanted.append(key)
            if again:
                return
            under_way = self.join(question, key, moment)
            alias = self.history.alias(name, klass, moment)
            if alias is None or under_way is not None and alias.moment() < under_way.moment:
                return
            name = alias.rows[0].lower()

    def join(self, question, key, moment):
        self.waiting.setdefault(key, []).append(question)
        under_way = self.latest.get(key)
        if under_way is None or not under_way.is_open(moment, self.ask):
            return None
        question.joined |= not question.tries
        question.tries.append(under_way)
        return under_way

    def drop(self, octets, why):
        try:
            for each in sum(messages.records(octets), []):
                if len(self.history.forged) < MOST_FORGED:
                    self.history.forged.setdefault((each.key, each.kind, each.data), why)
        except messages.Malformed:
            pass

    def unreachable(self, news, query):
        """Takes ICMP's news of a query, which may be all that the capture has of it."""
        how = UNREACHABLE.get(news.code, "unreachable")
        if query is not None:
            self.fail(query, how, news.moment)
        elif asked := asked_in(news.octets):
            query = Query(news.moment, news.transport, news.target, news.source, news.octets[:2], asked)
            query.is_lacked = True
            (self.begin if self.waiting.get(asked.same) else self.tell)(query)
            self.end(query, how, news.moment)

    def fail(self, query, how, moment):
        if self.record and query.how is None:
            self.record.ending(query, moment)
        self.end(query, how, moment)

    # Connections.
    def connect(self, connection, moment):
        """A connection to a server begins, perhaps after a cut reply: its question is known later, or never."""
        query = connection.query = Query(moment, "tcp", connection.server, connection.client)
        fitting = (each for each in self.cuts if each.server == query.server)
        query.cut = next((each for each in fitting if self.latest.get(each.asked.same) is each), None)
        if query.cut:
            query.asked = query.cut.asked
            self.begin(query)

    def carried(self, connection, octets):
        """Takes the question over a connection. One not in the forwarder's form is another program's."""
        query, asked = connection.query, asked_in(octets)
        if query is None or query.identifier is not None:
            return
        is_known = query.asked is not None and asked is not None and query.asked.same == asked.same
        if not is_known:
            self.withdraw(query)
        if asked is None:
            connection.query = None
            self.foreign += 1
            return
        query.identifier, query.asked = octets[:2], asked
        if not is_known:
            other = self.latest.get(asked.same)
            if other is not None and other.identifier is None:
                self.withdraw(other)
            self.begin(query)
        self.history.ask(query)

    def withdraw(self, query):
        """A connection is another program's, or for another question than it seemed."""
        if query.asked is None:
            return
        key = query.asked.same
        for question in self.waiting.get(key, ()):
            question.tries = [each for each in question.tries if each is not query]
        if self.latest.get(key) is query:
            self.latest[key] = query.cut
        self.open.pop(id(query), None)
        query.asked, query.number, query.is_shared = None, 1, False

    def forget(self, now):
        """Drops queries to which no later packet can belong."""
        since = now - self.ask - LATE_REPLY
        for found in (self.paths, self.latest):
            while found:
                key, query = next(iter(found.items()))
                if query is not None and query.moment >= since or query is None and len(found) < MOST_PATHS // 2:
                    break
                del found[key]


def asked_in(octets):
    return messages.question_in(octets[2:]) if octets[2:12] == QUERY_FLAGS else None


def strangeness(query, source, octets):
    """Why a reply is not one to its query (RFC 5452 9.1), in words; nothing if it is."""
    if source != query.server:
        return f"from {shown(source)}"
    if len(octets) < HEADER:
        return f"with {len(octets)} octets"
    if query.identifier is None:
        return "before the query"
    if octets[:2] != query.identifier:
        return "with another identifier"
    if octets[2] < 128:
        return "as a question"
    if octets[2] & OPERATION:
        return "of another operation"
    written = query.asked.written
    if octets[4:6] == b"\0\1" and octets[HEADER : HEADER + len(written)] == written:
        return ""
    asked = messages.question_of(octets)
    return "" if asked and asked.same == query.asked.same else "for another question"

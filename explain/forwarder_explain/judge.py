"""Judges an answer by what the forwarder claims, and SERVFAIL by its cause: right, different, or open."""
from typing import NamedTuple

from . import carriers, content, messages, wording
from .carriers import STALE_SECONDS, Carriers, Finding
from .content import MOST_ALIASES, NAME_ERROR, NO_DATA, SET, Piece
from .events import Bounded
from .messages import CNAME, HEADER, OPERATION, SOA
from .times import DOUBT, MILLISECOND, ORDER, SAME_MOMENT, SECOND, TICK

RIGHT, DIFFERENT, OPEN = "right", "different", "open"
NOERROR, FORMERR, SERVFAIL, NXDOMAIN, NOTIMP, REFUSED = range(6)
MOST_OF_A_DATAGRAM, LARGE = 512, 400  # octets of a message, and of a set that makes one too large
LARGE_REPLY = 50_000  # octets: it may be too large for an answer over TCP
BEFORE = "from before the capture began"
LOSSY = "packets are missing, by the capture's own count"
IN_PART = "the capture lacks a part of a reply"
NO_PORT = "no packet of its servers' port is in the capture"
NOT_SEEN = "not all of its tries are in the capture"
NOT_TAKEN = "a reply came in time, and was not taken"
AGAIN = "it is a second answer to one question"
UNEQUAL = "an equal question got another answer at one moment"


class Verdict(NamedTuple):
    """The judgement of an answer. `reason` is the number of forwarder(8), None if no packet shows it; `used` are the
    occurrences of the `parts`, in order; `shift` is a Finding's."""

    kind: str
    why: str = ""
    reason: object = None
    used: tuple = ()
    shift: object = None
    parts: tuple = ()


class Different(Exception):
    """Why an answer is different."""


class Failures:
    """Judges failures by the limits of a configuration: of `clients` and `upstream` it takes how many wait."""

    def __init__(self, configuration, history, clients, upstream):
        self.history, self.clients, self.upstream = history, clients, upstream
        self.limits = limits = configuration.limits
        self.route_of = configuration.route_of
        self.ask, self.deadline = limits["ask_ms"] * MILLISECOND, limits["deadline_ms"] * MILLISECOND

    def judge(self, question, living):
        if living is not None and not any(each.moment >= question.moment for each in question.tries):
            raise Different(f"{living.reply.query.asked.text()} is in the cache")
        waited, accepted = question.answered - question.moment, self.accepted(question)
        if waited >= self.deadline - TICK:
            is_late = accepted and question.answered - accepted.moment > ORDER
            return Verdict(OPEN, NOT_TAKEN, 9) if is_late else Verdict(RIGHT, reason=9)
        if self.has_too_many_aliases(question):
            return Verdict(RIGHT, reason=10)
        if accepted:
            return self.with_reply(question, accepted)
        if waited < ORDER and (reason := self.full(question)):
            return Verdict(RIGHT, reason=reason)
        kind, why = self.tries_failed(question)
        if kind != DIFFERENT:
            return Verdict(kind, why, 8)
        if self.tries_of(question):
            raise Different(why)
        return Verdict(OPEN, NOT_SEEN, 8)

    def has_too_many_aliases(self, question):
        """Whether aliases lead back to a name, or are more than a question may have; perhaps cached ones alone."""
        key, kind, klass = question.asked.same
        for _ in range(MOST_ALIASES + 1):
            alias = kind != CNAME and self.history.alias(key, klass, question.moment)
            if not alias or self.history.restart_between(alias.moment(), question.answered):
                break
            key = alias.rows[0].lower()
        else:
            return True
        wanted = [key[0] for key in question.wanted]
        replies = [each.reply for each in question.tries if each.reply]
        counts, last = {}, -1
        for name in wanted:
            lead = next((each for each in replies if each.leads == name), None)
            last = counts[name] = last + 1 if lead is None else counts.get(lead.query.asked.key, 0) + aliases_in(lead)
        most = max([last, *(counts.get(each.query.asked.key, 0) + aliases_in(each) for each in replies)])
        return most > MOST_ALIASES or len(set(wanted)) < len(wanted)

    @staticmethod
    def tries_of(question):
        tries = [each for each in question.tries if each.asked]
        if not tries or tries[-1].reply and tries[-1].reply.leads:
            return []
        return [each for each in tries if each.asked.same == tries[-1].asked.same]

    def accepted(self, question):
        tries = self.tries_of(question)
        reply = tries[-1].reply if tries else None
        return reply if reply and reply.moment <= question.answered and not reply.is_untaken else None

    def may_be_untaken(self, question):
        """Whether the reply to the last try may have been read too late."""
        reply = self.accepted(question)
        return bool(reply) and question.answered - reply.moment > ORDER and self.has_time_passed(question)

    def with_reply(self, question, reply):
        """The verdict despite a reply: it is too large, or was not taken within its time."""
        if question.is_over_tcp() and sum(len(row) for piece in reply.pieces for row in piece.rows) > LARGE_REPLY:
            return Verdict(RIGHT, reason=11)
        if reply.taken is None and (question.answered - reply.moment > ORDER or self.has_time_passed(question)):
            return Verdict(OPEN, NOT_TAKEN, 8)
        raise Different("a reply came in time")

    def tries_failed(self, question):
        """Whether all tries for the name that is wanted last have failed, as far as packets show."""
        tries, now, most = self.tries_of(question), question.answered, self.limits["tries"]
        seen = max([each.number for each in tries] + [len(tries)])
        if tries and not self.has_failed(tries[-1], now) and not self.has_time_passed(question):
            return DIFFERENT, "its last try had not failed"
        if seen >= most:
            return RIGHT, ""
        if tries and tries[-1].reply is not None:
            return OPEN, NOT_TAKEN
        began = tries[-1].ended or tries[-1].moment + self.ask if tries else question.moment
        if not tries and self.were_asked(question):
            return DIFFERENT, "no try failed: its servers were asked for other names meanwhile"
        if tries or now - began >= (most - seen) * self.ask - TICK or self.history.is_lossy:
            return OPEN, NOT_SEEN
        return DIFFERENT, "no try failed"

    def has_time_passed(self, question):
        """Whether the time of the last try may be over, by the service's clock: it begins as the try before ends."""
        tries, began = self.tries_of(question), question.moment
        if question.joined:
            began = min(began, question.tries[0].moment)
        for query in tries[:-1]:
            has_ended = query.how is not None and query.reply is None
            began = max(began, query.ended) if has_ended else began + self.ask
        return question.answered - began >= self.ask - TICK

    def were_asked(self, question):
        """Whether all servers of a name's route were asked for other names while a question waited."""
        route = self.route_of(question.wanted[-1][0]) if question.wanted else None
        return bool(route and route.servers) and all(
            self.upstream.sent.get(server, 0) >= question.moment - self.ask for server in route.servers
        )

    def has_failed(self, query, now):
        is_over = now - query.moment >= self.ask - TICK
        if query.reply is None:
            return query.how is not None or is_over
        return query.reply.is_untaken or query.reply.taken is None and now - query.reply.moment > ORDER and is_over

    def full(self, question):
        if self.clients.count >= self.limits["questions"]:
            return 5
        is_full = not question.tries and self.upstream.asking(question.answered) >= self.limits["inquiries"]
        return 6 if is_full else None


def aliases_in(reply):
    return sum(piece.kind == CNAME != reply.query.asked.kind for piece in reply.pieces)


class Judge:
    """Judges answers by a history. No packet came from `unseen` ports; `sides` are those in the capture."""

    def __init__(self, configuration, history, clock, failures):
        self.configuration, self.history, self.failures = configuration, history, failures
        self.carriers = Carriers(history, clock)
        self.clock, self.latest, self.unseen, self.sides = clock, Bounded(10_000), set(), None

    def judge(self, question):
        try:
            return self.by_question(question, question.answer)
        except Different as met:
            return Verdict(OPEN, LOSSY) if self.history.is_lossy else Verdict(DIFFERENT, met.args[0])

    def by_question(self, question, octets):
        """The verdict if the question alone decides; otherwise by the content."""
        asked = question.asked
        self.expect_header(question, octets)
        code, counts, operation = octets[3] & 15, octets[4:12], question.octets[2] & OPERATION
        if asked is None or operation:
            wanted, reason = (NOTIMP, 2) if operation else (FORMERR, 1)
            if (code, counts) != (wanted, bytes(8)):
                raise Different(f"{messages.CODES[wanted]} without a question is due")
            return Verdict(RIGHT, "", reason)
        if counts[:2] != b"\0\1" or octets[HEADER : HEADER + len(asked.written)] != asked.written:
            raise Different("it is to another question")
        route = self.configuration.route_of(asked.key)
        if content.is_unserved(asked) or route is None:
            wanted, reason = (NOTIMP, 3) if content.is_unserved(asked) else (REFUSED, 4)
            if (code, counts[2:]) != (wanted, bytes(6)):
                raise Different(f"{messages.CODES[wanted]} is due")
            return Verdict(RIGHT, "", reason)
        if code not in (NOERROR, NXDOMAIN):
            return self.failed(question, code, counts)
        return self.cut(question, code) if octets[2] & 2 else self.by_content(question, code, octets)

    def expect_header(self, question, octets):
        """The flags are the question's RD and operation, RA and QR (RFC 1035 4.1.1)."""
        if question.elsewhere:
            raise Different(wording.elsewhere(question))
        if len(octets) < HEADER:
            raise Different(f"it has {len(octets)} octets")
        wanted = 0x8000 | (question.octets[2] & 0x79) << 8 | 0x80
        if (octets[2] << 8 | octets[3]) & ~0x020F != wanted:
            raise Different("its flags are not those of an answer")
        if octets[2] & 2 and (question.is_over_tcp() or octets[6:12] != bytes(6)):
            raise Different("it is cut, over TCP or with records")

    def failed(self, question, code, counts):
        if counts[2:] != bytes(6):
            raise Different("it fails, and has records")
        self.expect_served(question.asked.key)
        if code == REFUSED:
            if any(self.configuration.route_of(key[0]) is None for key in question.wanted[1:]):
                return Verdict(RIGHT, "", 4)
            raise Different("its name has a route")
        if code != SERVFAIL:
            raise Different(f"{messages.CODES[code]} is no failure of the forwarder")
        return self.failures.judge(question, self.living(question))

    def living(self, question):
        """The last part that a look-up at the question's moment surely finds in the cache, or None."""
        key, kind, klass = question.asked.same
        for _ in range(MOST_ALIASES + 1):
            kinds = [(key, klass, kind), *((above, klass, None) for above in messages.parents(key))]
            found = next(filter(None, (self.surely(question, slot) for slot in kinds)), None)
            if found:
                return found
            alias = kind != CNAME and self.surely(question, (key, klass, CNAME))
            if not alias or alias.form != SET:
                return None
            key = alias.rows[0].lower()
        return None

    def surely(self, question, slot):
        history = self.history
        for each in history.at(slot):
            if history.is_kept(slot, each, question.moment) and not history.replaced_by(slot, each, question.moment):
                left = each.ends()[0] - self.clock.between(each.reply.moment, question.moment)[1]
                if left > question.answered and not history.restart_between(each.reply.moment, question.answered):
                    return each
        return None

    # Answers with content.
    def by_content(self, question, code, octets):
        asked = question.asked
        try:
            rows, authority = messages.records(octets, asked)
        except messages.Malformed:
            raise Different("its records can't be read") from None
        if octets[10:12] != b"\0\0":
            raise Different("it has additional records")
        parts, name, rest = self.aliases(asked, rows)
        if rest and (code == NXDOMAIN or authority):
            raise Different("it has a set, and is a denial")
        if not rest and self.denied_here(name):
            if code != NXDOMAIN or authority:
                raise Different(f"the configuration denies {messages.text(name)}")
            return self.together(question, tuple(parts), 13)
        self.expect_served(name)
        parts.append(set_of(asked, name, rest) if rest else denial_of(asked, name, code, authority))
        return self.together(question, tuple(parts), 0)

    def denied_here(self, name):
        route = self.configuration.route_of(name)
        return route is not None and route.denies

    def aliases(self, asked, rows):
        """The aliases at the beginning of an answer, the name to which they lead, and the other records."""
        parts, name = [], asked.key
        while rows and rows[0].kind == CNAME != asked.kind and rows[0].key == name:
            alias, *rows = rows
            self.expect_served(name)
            parts.append(Piece(SET, name, asked.klass, CNAME, (alias.data,), alias.seconds))
            name = alias.data.lower()
        if len(parts) > MOST_ALIASES:
            raise Different(f"it has {len(parts)} aliases")
        return parts, name, rows

    def expect_served(self, name):
        route = self.configuration.route_of(name)
        if route is None:
            raise Different(f"no route has the name {messages.text(name)}")
        if route.denies:
            raise Different(f"the configuration denies {messages.text(name)}")

    def together(self, question, parts, reason):
        found = [self.of(part, question) for part in parts]
        worst = max(found, key=lambda each: each.rank, default=None)
        if worst is not None and worst.rank > carriers.OLDER:
            return self.stale(question, parts) or self.wrong(question, parts, found)
        used = tuple(each.occurrence for each in found)
        if worst is not None and worst.rank == carriers.OLDER:
            return Verdict(OPEN, self.missing(question, parts) or BEFORE, reason, used, None, parts)
        bounds = None
        if used and used[-1].reply.moment < question.moment:
            bounds = self.carriers.shift(parts[-1], used[-1], question)
        self.expect_equal(question, parts, used)
        return Verdict(RIGHT, "", reason, used, bounds, parts)

    def of(self, part, question, stale=None):
        """The finding for a part; data from before the capture are remembered."""
        found = self.carriers.find(part, question, stale)
        if found.rank < carriers.UNLIKE:
            return found
        if not self.is_from_before(part, question, stale):
            return found if found.why else found._replace(why=wording.no_reply(part, self.forged(part)))
        lasts = part.seconds * SECOND
        ends = question.moment + lasts - DOUBT, question.answered + lasts + 2 * DOUBT
        if stale is not None and part.seconds == STALE_SECONDS:
            ends = question.moment - self.history.stale, question.answered
        return Finding(carriers.OLDER, self.history.put_older(part, *ends))

    def forged(self, part):
        """Why the only message with a part of an answer had to be dropped; None if there is none."""
        if part.form != SET:
            return None
        whys = [self.history.forged.get((part.key, part.kind, row)) for row in part.rows]
        return next(filter(None, whys), None)

    def is_from_before(self, part, question, stale):
        """Whether a part may rest on data from before the capture began."""
        history, slot = self.history, part.slot()
        if self.forged(part) or history.restart_between(history.begins - 1, question.answered):
            return False
        if stale is not None and part.seconds == STALE_SECONDS:
            return not history.at(slot)
        asked = part.key, question.asked.kind, part.klass
        if self.carriers.own_reply(slot, question) or hash(asked) in history.asked:
            return False
        older = [each for each in history.at(slot) if each.reply is None]
        if any(each.since > question.moment for each in older):
            return False  # an earlier answer had other data from before the capture
        if not self.sides.queries or not self.sides.replies:
            return True
        whole = part.seconds * SECOND + question.answered - history.begins
        if older or whole > (content.LONGEST if part.form == SET else content.LONGEST_DENIAL) * SECOND:
            return False
        if not part.rows:  # such a denial is not cached
            return question.asked.same in history.orphans
        if part.form != SET and any(True for _ in history.denials(part.key, part.klass)):
            return False
        fit = self.carriers.fit_seconds  # the lifetime of other data is a sign of changed data
        return not any(
            each.is_sure and each.form == SET and (each.rank == 3 or fit(part, each, question, False, None).rank == 0)
            for each in history.at(slot)
        )

    def wrong(self, question, parts, found):
        if missing := self.missing(question, parts):
            return Verdict(OPEN, missing, 0, (), None, parts)
        wrong = [each for each in found if each.rank > carriers.OLDER]
        shift = wrong[0].shift
        for each in wrong[1:]:
            shift = shift and each.shift and (max(shift[0], each.shift[0]), min(shift[1], each.shift[1]))
        return Verdict(DIFFERENT, wrong[0].why, None, tuple(each.occurrence for each in found), shift, parts)

    def missing(self, question, parts):
        """The missing packets that may explain an answer, in words; None if none are missing."""
        if self.history.is_lossy:
            return LOSSY
        names = [question.asked.key, *(part.key for part in parts)]
        if self.unseen and any(self.is_unseen(name) for name in names):
            return NO_PORT
        kind, klass = question.asked.kind, question.asked.klass
        return IN_PART if any((name, kind, klass) in self.history.missing for name in names) else None

    def is_unseen(self, name):
        route = self.configuration.route_of(name)
        return route is not None and any(port in self.unseen for _, port in route.servers)

    def stale(self, question, parts):
        """The verdict on expired data, which are answered after all tries failed; None if they are not expired."""
        has_expired = any(part.seconds == STALE_SECONDS for part in parts)
        if not self.history.stale or parts[-1].form != SET or not has_expired:
            return None
        found = self.expired(question, parts, question.answered)
        if found is None and self.failures.may_be_untaken(question):
            found = self.expired(question, parts, question.moment)
            if found is not None:
                return Verdict(OPEN, NOT_TAKEN, 12, tuple(each.occurrence for each in found), None, parts)
        if found is None:
            return None
        kind, why = self.failures.tries_failed(question)
        if kind == DIFFERENT:
            if missing := self.missing(question, parts):
                return Verdict(OPEN, missing, 12, (), None, parts)
            return Verdict(DIFFERENT, f"{wording.expired_without(found)}, and {why}")
        if any(each.rank == carriers.OLDER for each in found):
            kind, why = OPEN, BEFORE
        return Verdict(kind, why, 12, tuple(each.occurrence for each in found), None, parts)

    def expired(self, question, parts, until):
        """The findings for expired data that nothing replaced until a moment; None if a part has none."""
        found = [self.carriers.find(part, question, until) for part in parts]
        found = [
            self.of(part, question, until) if each is carriers.NOTHING else each for part, each in zip(parts, found)
        ]
        return None if any(each.rank > carriers.OLDER for each in found) else found

    def expect_equal(self, question, parts, used):
        """Equal questions get equal answers from the cache at one moment."""
        key, rows = question.asked.same, tuple(part.rows for part in parts)
        if any(each.reply is None or each.reply.moment >= question.moment for each in used):
            self.latest.pop(key, None)
            return
        known = max((each.reply.latest() for each in used), default=0) + ORDER  # surely by then
        last, self.latest[key] = self.latest.get(key), (question.answered, rows, known)
        if last and question.answered - last[0] < SAME_MOMENT and last[1] != rows and max(known, last[2]) < last[0]:
            raise Different(UNEQUAL)

    # Answers that are cut.
    def cut(self, question, code):
        key, kind, klass = question.asked.same
        owner, rows, used, last, is_denied = question.asked.name, [], [], None, False
        self.expect_served(key)
        while not last and len(used) <= MOST_ALIASES:
            if self.denied_here(key):
                last, is_denied = used[-1], True
                break
            last = self.largest(question, (key, klass, kind)) or self.denial(question, key)
            found = last or kind != CNAME and self.largest(question, (key, klass, CNAME))
            if not found:
                break
            used.append(found)
            if found.form != SET:
                is_denied = found.form == NAME_ERROR
                rows += [(found.rows[0], SOA, found.rows[1])] if found.rows else []
                break
            rows += [(owner, kind if last else CNAME, row) for row in found.rows]
            owner = found.rows[0]
            key = owner.lower()
        size = messages.size_with(question.asked, rows)
        if last and size > MOST_OF_A_DATAGRAM and is_denied == (code == NXDOMAIN):
            return Verdict(RIGHT, "", 0, tuple(used))
        missing = self.missing(question, ())
        is_known = last or len(used) > MOST_ALIASES or hash((key, kind, klass)) in self.history.asked
        if missing or not is_known:
            return Verdict(OPEN, missing or BEFORE, 0)
        is_small = not last or size <= MOST_OF_A_DATAGRAM
        raise Different(f"it is cut, and {'no reply carried so much' if is_small else 'has not the code of its data'}")

    def largest(self, question, slot):
        """The latest large occurrence that may be in an answer, or the latest one."""
        found = (each for each in self.history.at(slot) if each.reply and each.reply.moment <= question.answered)
        sizes = ((sum(len(row) + 12 for row in each.rows) > LARGE, each.moment(), id(each), each) for each in found)
        return max(sizes, default=[None])[-1]

    def denial(self, question, key):
        found = (each for _, each in self.history.denials(key, question.asked.klass) if each.reply)
        return next((each for each in found if each.reply.moment <= question.answered), None)


def set_of(asked, name, rows):
    wanted = name, asked.kind, asked.klass
    if any((each.key, each.kind, each.klass) != wanted for each in rows):
        raise Different(f"it has records that are not of {messages.text(name)} {messages.kind_text(asked.kind)}")
    if len(rows) > 1 and len({each.seconds for each in rows}) > 1:
        raise Different("the records of its set have several lifetimes")
    return Piece(SET, name, asked.klass, asked.kind, tuple(each.data for each in rows), rows[0].seconds)


def denial_of(asked, name, code, authority):
    """The denial of an answer: of its name, or of its type alone."""
    if len(authority) > 1 or any(each.kind != SOA or each.klass != asked.klass for each in authority):
        raise Different("it has authority records that are not one SOA")
    rows = tuple(value for each in authority for value in (each.key, each.data))
    seconds = authority[0].seconds if authority else 0
    form, kind = (NAME_ERROR, None) if code == NXDOMAIN else (NO_DATA, asked.kind)
    return Piece(form, name, asked.klass, kind, rows, seconds)

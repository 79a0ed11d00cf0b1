"""Looks for the reply with a part of an answer, by the headline: whole, to a query of the name's route, since the last
restart, not replaced, and with a right lifetime."""
from typing import NamedTuple

from . import wording
from .content import NAME_ERROR
from .times import DOUBT, ORDER, SECOND, TICK

# How a reply fits, the best first.
RIGHT, OLDER, LIFETIME, EXPIRED, REPLACED, RESTARTED, ROUTE, UNTAKEN, UNLIKE, NONE = range(10)
STALE_SECONDS = 30  # the lifetime of expired data in answers (RFC 8767)


class Finding(NamedTuple):
    """How the best occurrence fits a part, and why not better. `shift` is given if the lifetime alone is wrong."""

    rank: int
    occurrence: object = None
    why: str = ""
    shift: object = None


NOTHING = Finding(NONE)


class Carriers:
    """Looks for the parts of answers, each a Piece."""

    def __init__(self, history, clock):
        self.history, self.clock = history, clock

    def find(self, part, question, stale=None):
        """The best finding for a part. Expired data may have been replaced until the moment `stale`."""
        best = NOTHING
        if part.form == NAME_ERROR:
            candidates = self.history.denials(part.key, part.klass)
        else:
            candidates = ((part.key, each) for each in reversed(self.history.at(part.slot())))
        for key, each in candidates:
            found = self.fit(part, key, each, question, stale)
            if found.rank < best.rank:
                best = found
                if best.rank == RIGHT:
                    break
        return best

    def fit(self, part, key, each, question, stale):
        reply, used = each.reply, question.answered
        if each.form != part.form or reply is not None and reply.moment > used:
            return NOTHING
        if each.rows != part.rows:
            return Finding(UNLIKE, each, wording.unlike(part, each))
        if reply is None:
            return self.fit_older(part, each, question, stale)
        route_of = self.history.configuration.route_of
        route = route_of(part.key)
        if route is None or reply.query.server not in route.servers or route_of(reply.query.asked.key) is not route:
            return Finding(ROUTE, each, wording.of_route(reply))
        if restart := self.history.restart_between(reply.moment, used):
            return Finding(RESTARTED, each, wording.before_restart(reply, restart))
        if reply.is_untaken and reply.doubt is None:
            return Finding(UNTAKEN, each, wording.untaken(reply))
        waited = reply.moment >= question.moment
        if not waited or stale is not None:
            later = None if waited or stale is not None else self.own_reply(part.slot(), question)
            if later is None:
                before = question.moment if stale is None else stale
                found = self.history.replaced_by((key, part.klass, part.kind), each, before)
                later = found and found.reply
            if later:
                return Finding(REPLACED, each, wording.replaced(reply, later))
        return self.fit_seconds(part, each, question, waited, stale)

    @staticmethod
    def own_reply(slot, question):
        """The reply to a query of a question's own with data in a slot, from before its answer, or None."""
        for reply in (query.reply for query in question.tries if query.reply and not query.is_shared):
            if not reply.is_untaken and question.moment <= reply.moment <= question.answered:
                if any(piece.slot() == slot for piece in reply.pieces):
                    return reply
        return None

    def fit_seconds(self, part, each, question, waited, stale):
        """How the lifetime fits: between the seconds left at question and answer, with a second of doubt."""
        reply, (since, until) = each.reply, each.ends()
        least, most = self.clock.between(reply.moment, question.answered)
        low = max(0, since - question.answered - most) // SECOND
        high = whole = each.life // SECOND
        if not waited:
            high = min(high, max(0, until - question.moment - least) // SECOND)
        left = until - question.answered - least
        if stale is not None and left < DOUBT and (part.seconds == STALE_SECONDS or left <= -DOUBT):
            return self.fit_stale(part, each, left)
        late = ORDER if reply.taken is not None and least == most else DOUBT
        if not waited and until + late <= question.moment + least:
            why = wording.expired(reply, question.moment + least - until)
            return Finding(EXPIRED, each, why, self.shift(part, each, question))
        if low - 1 <= part.seconds <= min(high + 1, whole):
            return Finding(RIGHT, each)
        why = wording.lifetime(part, reply, low, high)
        return Finding(LIFETIME, each, why, None if waited else self.shift(part, each, question))

    def fit_stale(self, part, each, left):
        """How expired data fit: with 30 seconds, and within the window after their end."""
        if part.seconds != STALE_SECONDS:
            return Finding(LIFETIME, each, wording.lifetime(part, each.reply, STALE_SECONDS, STALE_SECONDS))
        if left + self.history.stale + DOUBT <= 0:
            return Finding(EXPIRED, each, wording.expired(each.reply, -left))
        return Finding(RIGHT, each)

    def fit_older(self, part, each, question, stale):
        """How data from before the capture fit, which an earlier answer had."""
        since, until = each.since, each.until
        if stale is not None and part.seconds == STALE_SECONDS:
            is_within = question.answered <= until + self.history.stale + DOUBT
            return Finding(OLDER if is_within else EXPIRED, each, wording.ended(until))
        low = max(0, since - question.answered) // SECOND - 1
        high = max(0, until - question.moment) // SECOND + 1
        if until + DOUBT <= question.moment:
            return Finding(EXPIRED, each, wording.ended(until))
        if low <= part.seconds <= high:
            each.since = max(since, question.moment + part.seconds * SECOND - DOUBT)
            each.until = min(until, question.answered + (part.seconds + 1) * SECOND + DOUBT)
            return Finding(OLDER, each)
        return Finding(LIFETIME, each, wording.lifetime(part, None, max(0, low + 1), max(0, high - 1)))

    @staticmethod
    def shift(part, each, question):
        """How much more time must have passed for a right lifetime, at least and at most."""
        since, until = each.ends()
        most = until - question.moment - part.seconds * SECOND + TICK
        return since - question.answered - (part.seconds + 1) * SECOND - TICK, most

"""The content of replies, by slot: name, class and type of a set or of a denial of one type, or name and class of a
denied name. And since when it counts: restarts, and the beginning of the capture."""
import itertools
from collections import OrderedDict

from .content import NAME_ERROR, SET
from .messages import CNAME, parents
from .times import DOUBT, EXPIRED, ORDER, REMEMBERED, SECOND

SHOWN = 9  # the rank of a record that refutes a denied name, in the slot of the denial
MOST_OF_SLOT, MOST_KEPT = 4, 64  # occurrences in a slot before some are dropped, and afterwards


class Occurrence:
    """A piece in a reply, or data from before the capture, which end between `since` and `until`."""

    __slots__ = ("rows", "form", "life", "rank", "reply", "since", "until", "is_sure", "touched")

    def __init__(self, piece, reply, is_sure, since=None, until=None):
        self.rows, self.form, self.life, self.rank = piece.rows, piece.form, piece.seconds * SECOND, piece.rank
        self.reply, self.is_sure, self.touched, self.since, self.until = reply, is_sure, 0, since, until

    def moment(self):
        return self.reply.moment if self.reply else 0

    def ends(self):
        """Between which moments it expires."""
        if self.reply is None:
            return self.since, self.until
        return self.reply.moment + self.life, self.reply.latest() + self.life


class Restart:
    """The service ended after `since`, and had begun by `until`: data from before the first moment do not count after
    the second. `shown` says how the restart is known; `waiting` are the questions open at its time."""

    def __init__(self, since, until, shown, waiting=()):
        self.since, self.until, self.shown, self.waiting, self.begun = since, until, shown, list(waiting), None

    def parts(self, carried, used):
        return carried < self.since and used >= self.until


class History:
    """`begins` is the first moment of the capture, `is_lossy`: by its own count it lost packets. `asked` are hashes of
    questions with a query, `forged` the records of dropped messages, `missing` the questions whose reply lacks a part,
    `orphans` those of early replies without a query, `shown` restarts that were told and that a query shows."""

    def __init__(self, configuration, begins, is_lossy):
        self.configuration, self.begins, self.is_lossy = configuration, begins, is_lossy
        self.slots, self.limit = OrderedDict(), 2 * configuration.limits["cache"] + 4096
        self.restarts, self.told, self.shown = [], [], []
        self.asked, self.forged, self.touches = set(), {}, 0
        self.missing, self.orphans, self.stale = set(), set(), configuration.limits["stale_s"] * SECOND

    def tell(self, since, until):
        """The user says that the service was started again within a second of a time."""
        self.told.append(Restart(since - SECOND, max(until, since + SECOND), "told by --restarted"))

    # What came.
    def put(self, piece, reply, is_sure):
        self.enter(piece.slot(), Occurrence(piece, reply, is_sure), reply.moment)
        if piece.form != NAME_ERROR:
            for above in parents(piece.key):
                slot = above, piece.klass, None
                if slot in self.slots:  # a set or an empty type at or below shows that the name exists
                    self.enter(slot, Occurrence(piece._replace(form=SET, rank=SHOWN), reply, is_sure), reply.moment)

    def enter(self, slot, occurrence, moment):
        found = self.slots.get(slot)
        if found is None:
            self.slots[slot] = [occurrence]
            if len(self.slots) > self.limit:
                self.slots.popitem(last=False)
        else:
            self.slots.move_to_end(slot)
            found.append(occurrence)
            if len(found) > MOST_OF_SLOT:
                self.prune(found, moment)
        self.touch(occurrence)

    def prune(self, found, moment):
        kept = []
        for place, each in enumerate(found):
            later = next((other for other in found[place + 1 :] if replaces(other, each)), None)
            is_replaced = later is not None and later.moment() < moment - REMEMBERED
            if not is_replaced and each.ends()[1] > moment - self.stale - EXPIRED:
                kept.append(each)
        found[:] = kept[-MOST_KEPT:]

    def touch(self, occurrence):
        self.touches += 1
        occurrence.touched = self.touches

    def put_older(self, piece, since, until):
        """Takes data from before the capture, with the bounds of their end that an answer shows."""
        occurrence = Occurrence(piece, None, False, since, until)
        self.slots.setdefault(piece.slot(), []).insert(0, occurrence)
        return occurrence

    # What is known of a moment.
    def at(self, slot):
        return self.slots.get(slot, ())

    def denials(self, key, klass):
        """The occurrences of denied names at or above a name, the nearest first."""
        for above in parents(key):
            for each in reversed(self.slots.get((above, klass, None), ())):
                if each.form == NAME_ERROR:
                    yield above, each

    def alias(self, key, klass, moment):
        for each in reversed(self.slots.get((key, klass, CNAME), ())):
            if each.form == SET and each.ends()[1] + DOUBT > moment:
                return each
        return None

    def replaced_by(self, slot, occurrence, before):
        """The occurrence that took the place of another in its slot before a moment, or None."""
        found = self.slots.get(slot, ())
        if not found or found[-1] is occurrence or occurrence not in found:
            return None
        for each in found[found.index(occurrence) + 1 :]:
            reply = each.reply
            if replaces(each, occurrence) and occurrence.reply.latest() < reply.moment:
                if (reply.moment + ORDER if reply.taken is None else reply.taken) < before:
                    return each
        return None

    def restart_between(self, carried, used):
        """The last restart between a reply and an answer, or None."""
        if not self.restarts and not self.told:
            return None
        known = itertools.chain(self.restarts, self.told, reversed(self.shown))
        return next((each for each in known if each.parts(carried, used)), None)

    def answered(self, moment):
        if self.restarts or self.told:
            for each in itertools.chain(self.restarts, self.told):
                if each.begun is None and each.until <= moment:
                    each.begun = moment

    def ask(self, query):
        """The service asks for data that were surely cached: a restart that was told came after their reply."""
        (key, kind, klass), moment = query.asked.same, query.moment
        slot = key, klass, kind
        for found in self.at(slot) if self.told and query.is_wanted else ():
            if self.is_kept(slot, found, moment):
                carried = found.reply.moment
                if any(each.since <= moment and each.until > carried for each in self.told):
                    self.shown.append(Restart(carried + 1, moment, "told by --restarted"))

    def is_kept(self, slot, each, moment):
        """Whether an occurrence is surely in the cache, but for a restart."""
        reply = each.reply
        if reply is None or each.rank == SHOWN or not each.is_sure or reply.is_untaken:
            return False
        if reply.taken is None or reply.taken >= moment:
            return False
        is_evicted = self.touches - each.touched >= self.configuration.limits["cache"]
        if is_evicted or each.ends()[0] <= moment + DOUBT:
            return False
        better = (other for other in self.at(slot) if other.rank > each.rank)  # which is not replaced while it lives
        return not any(other.moment() < reply.moment < other.ends()[1] + DOUBT for other in better)


def replaces(later, earlier):
    if not later.is_sure or later.reply.is_untaken:
        return False
    return later.rank >= earlier.rank or later.form == NAME_ERROR

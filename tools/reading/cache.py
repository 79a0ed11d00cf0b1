"""Which pieces are kept, for how long, and how a question is looked up."""
from dataclasses import dataclass

from .messages import CNAME, is_under, key
from .replies import MOST_ALIASES, NAME_ERROR, SET, Piece

LOCAL, MISS, LONG = "local", "miss", "long"


@dataclass(frozen=True)
class Kept:
    """A piece and when it was accepted, in milliseconds."""
    piece: Piece
    accepted: int

    def is_alive(self, now, window=0):
        """Whether its lifetime, and a window of so many seconds after it, has not passed."""
        return now < self.accepted + 1000 * (self.piece.lifetime + window)

    def ttl(self, now):
        """The seconds left, rounded down."""
        return max(0, self.accepted + 1000 * self.piece.lifetime - now) // 1000


class Cache:
    """At most `capacity` pieces with different slots, the one used last first.

    Pieces that are no longer alive stay until they are replaced or pushed out.
    """

    def __init__(self, capacity):
        self.capacity, self.entries = capacity, []

    def at(self, slot):
        """What has the slot, alive or not."""
        return next((entry for entry in self.entries if entry.piece.slot() == slot), None)

    def promote(self, entry):
        """A piece that was used moves to the front."""
        self.entries.remove(entry)
        self.entries.insert(0, entry)

    def forget_denials(self, name, class_):
        """A name is there if anything of it is: name errors at or above it go (RFC 8020 2)."""
        self.entries = [entry for entry in self.entries
                        if not (entry.piece.form == NAME_ERROR and entry.piece.class_ == class_
                                and is_under(name, entry.piece.owner))]

    def offer(self, piece, now):
        """Keeps a piece in front, in the place of its slot's or pushing out the last one.

        A living piece of higher rank stays instead (RFC 2181 5.4.1), but a name error is not
        compared. A piece of lifetime 0 is not kept, and what its slot had goes (RFC 1035 3.2.1).
        """
        if piece.form != NAME_ERROR:
            self.forget_denials(piece.owner, piece.class_)
        old = self.at(piece.slot())
        if (old and piece.form != NAME_ERROR and old.is_alive(now)
                and old.piece.rank > piece.rank):
            return
        if old:
            self.entries.remove(old)
        if piece.lifetime:
            self.entries = [Kept(piece, now), *self.entries][:self.capacity]

    def denial_above(self, name, class_, now, configuration):
        """The nearest living name error at or above the name and on its route (RFC 8020 2)."""
        above = [entry for entry in self.entries
                 if entry.piece.form == NAME_ERROR and entry.piece.class_ == class_
                 and is_under(name, entry.piece.owner) and entry.is_alive(now)
                 and configuration.route_of(entry.piece.owner) == configuration.route_of(name)]
        return max(above, key=lambda entry: len(entry.piece.owner), default=None)

    def find(self, name, kind, class_, now, configuration):
        """The first of these that is alive: the set asked for, an alias, a NODATA answer of the
        type, a name error. So a set below a denied name is answered until it ends."""
        own = self.at((key(name), kind, class_))
        alias = self.at((key(name), CNAME, class_))
        found = [entry for entry in (own, alias)
                 if entry and entry.piece.form == SET and entry.is_alive(now)]
        if found:
            return found[0]
        if own and own.is_alive(now):
            return own
        return self.denial_above(name, class_, now, configuration)

    def find_stale(self, name, kind, class_, now, window):
        """The set asked for or an alias, alive or ended within the window; no denial."""
        own = self.at((key(name), kind, class_))
        alias = self.at((key(name), CNAME, class_))
        return next((entry for entry in (own, alias) if entry and entry.piece.form == SET
                     and entry.is_alive(now, window)), None)


def is_alias(entry, kind):
    """Whether a piece leads on: a CNAME, unless CNAME is the type asked for (RFC 1034 3.6.2)."""
    return entry.piece.form == SET and entry.piece.kind == CNAME != kind


def look_up(question, held, find, promote, denies):
    """Follows a question through kept aliases: the chain of pieces, the end, the last name.

    `held` are aliases that it has already. It ends at a name that its route denies, at a set or a
    denial, at a name of which nothing is found, or at a ninth alias. What is used is promoted.
    """
    name, chain = question.name, list(held)
    while True:
        if denies(name):
            return chain, LOCAL, name
        entry = find(name, question.kind, question.class_)
        if not entry:
            return chain, MISS, name
        promote(entry)
        if not is_alias(entry, question.kind):
            return [*chain, entry], entry.piece.form, name
        if len(chain) == MOST_ALIASES:
            return chain, LONG, name
        chain.append(entry)
        name = entry.piece.target()

"""Rules misread on purpose, one at a time: the comparison has to see each of them.

A misreading takes the place of a function of the reading, which it gets first, before the arguments
of the call."""
import contextlib
import re
from dataclasses import replace
from unittest import mock

from reading import cache, configuration, messages, replies, step
from reading.step import Forwarder

NOERROR, NXDOMAIN = 0, 3
ALL = []  # each misread rule, with a call that returns patches


def misreads(*places):
    """Adds a function as a misreading of functions, each a module or class and a name there."""
    def added(function):
        def patches():
            for owner, name in places:
                right = getattr(owner, name)
                wrong = lambda *given, right=right: function(right, *given)  # noqa: E731
                yield owner, name, wrong

        ALL.append((function.__doc__, patches))
        return function

    return added


@contextlib.contextmanager
def misread(patches):
    """The reading with one rule misread, until the block ends."""
    with contextlib.ExitStack() as until:
        for patch in list(patches()):
            until.enter_context(mock.patch.object(*patch))
        yield


@misreads((step, "is_dropped"))
def drops_rcode(right, octets):
    """A client's message with an RCODE is dropped."""
    return right(octets) or messages.read_header(octets).rcode != 0


@misreads((step, "asked"))
def refuses_answers(right, octets):
    """A client's message with an ANCOUNT above 0 is answered FORMERR."""
    if messages.read_header(octets).counts[1]:
        raise messages.Unreadable
    return right(octets)


@misreads((step, "judge"))
def fails_denials(right, ask, peer, octets):
    """NXDOMAIN with AA clear is a failure."""
    verdict = right(ask, peer, octets)
    denied = verdict == replies.WHOLE and messages.read_header(octets).rcode == NXDOMAIN
    return replies.FAILED if denied and not messages.read_header(octets).aa else verdict


@misreads((Forwarder, "fail"))
def prefers_first_again(right, self, ask, verdict):
    """After the last try the first server of the group is preferred again."""
    if ask.tries == self.limits["tries"]:
        self.preferred[ask.route] = 0
    return right(self, ask, verdict)


@misreads((Forwarder, "accept"))
def prefers_no_denier(right, self, ask, pieces, end, name, sets):
    """A reply that denies makes no server preferred."""
    before = self.preferred[ask.route]
    actions = right(self, ask, pieces, end, name, sets)
    if end in (replies.NAME_ERROR, replies.NO_DATA):
        self.preferred[ask.route] = before
    return actions


@misreads((replies, "walk"))
def asks_at_two_aliases(right, message, question, route, of):
    """At two CNAME records of a later name, that name is asked for; the reply is not lame."""
    pieces, end, name = right(message, question, route, of)
    if end == replies.LAME and messages.key(name) != messages.key(question.name):
        others = [record for record in message.answers
                  if messages.key(record.owner) != messages.key(name)]
        header = replace(message.header, rcode=NOERROR)
        return right(messages.Message(header, others, []), question, route, of)
    return pieces, end, name


@misreads((cache.Cache, "promote"))
def promotes_no_name_errors(right, self, entry):
    """A name error that is used is not promoted."""
    return None if entry.piece.form == replies.NAME_ERROR else right(self, entry)


@misreads((messages, "shape_of"))
def shapes_internet_alone(right, kind, class_):
    """Names in record data are read in class IN alone, but for CNAME and SOA."""
    is_read = class_ == 1 or kind in (messages.CNAME, messages.SOA)
    return right(kind, class_) if is_read else None


@misreads((Forwarder, "on_question"))
def looks_up_with_rd(right, self, request):
    """A question with RD clear is not answered from the cache."""
    if request.rd:
        return right(self, request)
    with mock.patch.object(self, "cache", cache.Cache(1)):
        return right(self, request)


@misreads((Forwarder, "look_on"))
def denies_at_once_alone(right, self, wanted, held):
    """A kept denial is not used for a name that a reply leads to."""
    chain, end, name = right(self, wanted, held)
    if end in (replies.NAME_ERROR, replies.NO_DATA):
        return chain[:-1], cache.MISS, name
    return chain, end, name


@misreads((step, "judge"))
def takes_unknown_rcodes(right, ask, peer, octets):
    """RCODE 6 to 15 is no failure."""
    if len(octets) >= 12 and octets[3] & 15 > 5:
        octets = octets[:3] + bytes([octets[3] & 0xF0]) + octets[4:]
    return right(ask, peer, octets)


ALL.append(("A suffix with a hyphen in a label is no name.",
            lambda: [(configuration, "LABEL", re.compile(r"[A-Za-z0-9_]{1,63}"))]))


def unpromoted(right, forwarder, request, is_so):
    """The actions of a question, which promotes nothing if this holds of the actions."""
    before = list(forwarder.cache.entries)
    actions = right(forwarder, request)
    if is_so(actions):
        forwarder.cache.entries = before
    return actions


@misreads((Forwarder, "on_question"))
def promotes_nothing_for_who_joins(right, self, request):
    """A question that joins an inquiry promotes nothing."""
    return unpromoted(right, self, request, lambda actions: not actions)


@misreads((Forwarder, "on_question"))
def promotes_nothing_for_cut_answers(right, self, request):
    """An answer that is cut over UDP promotes nothing."""
    return unpromoted(right, self, request, lambda actions: actions and actions[0][0] == "reply"
                      and messages.read_header(actions[0][-1]).tc)


@misreads((cache.Cache, "offer"))
def promotes_outranking(right, self, piece, now):
    """An entry that outranks a piece is promoted."""
    old = self.at(piece.slot())
    right(self, piece, now)
    if old in self.entries:
        self.promote(old)


@misreads((cache.Cache, "offer"))
def drops_expired_first(right, self, piece, now):
    """A full cache drops an entry that ended, if any."""
    ended = [entry for entry in self.entries if not entry.is_alive(now)]
    is_full = len(self.entries) == self.capacity and not self.at(piece.slot())
    if ended and is_full and piece.lifetime:
        self.entries.remove(ended[-1])
    right(self, piece, now)


@misreads((cache.Cache, "find_stale"))
def prefers_living_aliases(right, self, name, kind, class_, now, window):
    """After the last try a living alias comes before a set that ended."""
    own, alias = (self.at((messages.key(name), each, class_)) for each in (kind, 5))
    is_led = alias and alias.piece.form == replies.SET and alias.is_alive(now)
    if is_led and not (own and own.is_alive(now)):
        return alias
    return right(self, name, kind, class_, now, window)


@misreads((Forwarder, "ask"))
def spells_as_the_oldest(right, self, question, route, server, tries, transport):
    """A further query has the spelling of the question that waits longest."""
    waiting = [each.wanted for each in self.waiting if each.wanted.same(question)]
    return right(self, waiting[0] if tries > 1 else question, route, server, tries, transport)


LOWER = bytes.maketrans(bytes((*range(65, 91), *range(0xC0, 0xDF))),
                        bytes((*range(97, 123), *range(0xE0, 0xFF))))


@misreads(*((each, "key") for each in (messages, configuration, replies, cache)))
def lowers_past_ascii(_, name):
    """The octets C0 to DE are letters."""
    return tuple(label.translate(LOWER) for label in name)


@misreads((configuration.Configuration, "route_of"))
def knows_eight_routes(right, self, name):
    """No route after the eighth is looked at."""
    return right(replace(self, routes=self.routes[:8]), name)


@misreads((replies.Piece, "slot"))
def compares_an_octet_of_classes(right, self):
    """Of two classes the low octets alone are compared, where something is kept."""
    return (*right(self)[:2], self.class_ & 255)


@misreads((step, "is_served"))
def denies_all_that_end_in_255(right, question):
    """A class whose low octet is 255 is not served."""
    return right(question) and question.class_ & 255 != 255

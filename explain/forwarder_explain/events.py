"""Questions of clients, and queries to servers with their replies."""
from typing import NamedTuple


class Bounded(dict):
    """A dictionary whose oldest value goes if there are too many."""

    def __init__(self, most):
        super().__init__()
        self.most = most

    def __setitem__(self, key, value):
        self.pop(key, None)
        super().__setitem__(key, value)
        if len(self) > self.most:
            del self[next(iter(self))]


class Question:
    """A client's message, and its fate.

    `client` is the peer over UDP, and the connection over TCP. `tries` are the queries for its name, and the names of
    its aliases, from its time; `wanted` is the list of asked names. `others` are clients with an equal question from
    this time. `over` is the reason for a missing answer, with its moment; `elsewhere` is the address that answered, if
    another was asked. `told`: the line is due."""

    __slots__ = "moment client peer octets asked answer answered tries wanted joined others over verdict".split()
    __slots__ += ["told", "elsewhere"]

    def __init__(self, moment, client, peer, octets, asked):
        self.moment, self.client, self.peer, self.octets, self.asked = moment, client, peer, octets, asked
        self.answer = self.answered = self.over = self.verdict = self.elsewhere = None
        self.tries, self.wanted, self.joined, self.others, self.told = [], [], False, (), False

    def is_over_tcp(self):
        return self.client is not self.peer


class Query:
    """A query to a server, in the forwarder's form.

    `asked` is None of a connection that carried nothing yet. `number` counts the tries of its inquiry. `how` is its end
    in a word, since `ended`. `unfit` has the moments and faults of dropped replies. `is_wanted`: a question waited for
    it. `is_shared`: another program may have asked the same at that time. `is_lacked`: the capture has only ICMP's news
    of it. `cut` is the query with a cut reply, whose question a connection seemed to be for as it began."""

    __slots__ = "moment transport server source identifier asked number how ended reply unfit late cut".split()
    __slots__ += ["is_wanted", "is_shared", "is_lacked"]

    def __init__(self, moment, transport, server, source, identifier=None, asked=None):
        self.moment, self.transport, self.server, self.source = moment, transport, server, source
        self.identifier, self.asked, self.number = identifier, asked, 1
        self.how = self.ended = self.reply = self.late = self.cut = None
        self.unfit, self.is_wanted, self.is_shared, self.is_lacked = (), False, False, False

    def end(self, how, moment):
        self.how, self.ended = how, moment

    def is_open(self, now, ask):
        """Whether its time is not over, and nothing ended it."""
        return self.how is None and now - self.moment < ask


class Origin(NamedTuple):
    """The query of a reply, as far as remembered."""

    moment: int
    transport: str
    server: tuple
    asked: tuple


class Reply:
    """A reply that fits its query. `taken` is the moment of the first answer with its content; an untaken reply was not
    used: its question was asked again while a client waited, or failed, and is in `doubt`. `leads` is the name that its
    aliases leave open."""

    __slots__ = ("query", "moment", "pieces", "leads", "taken", "is_untaken", "doubt")

    def __init__(self, query, moment, pieces, leads):
        self.query = Origin(query.moment, query.transport, query.server, query.asked)
        self.moment, self.pieces, self.leads = moment, pieces, leads
        self.taken, self.is_untaken, self.doubt = None, False, None

    def latest(self):
        """The last moment at which the service may have read it, as far as packets show."""
        return self.moment if self.taken is None else self.taken

"""What each event does: a question, a reply, a failed path, the time, a restart.

Each gives its actions in this order: a close, the replies in the order of their questions' arrival,
an ask. A path is ("udp", port) or ("tcp", number of the connection).
"""
from dataclasses import dataclass, replace

from . import answers
from .answers import Request
from .cache import LOCAL, LONG, MISS, Cache, Kept, look_up
from .messages import (LONGEST_MESSAGE, Header, Question, Unreadable, first_question, read_header,
                       read_message, write_message)
from .replies import (ELSEWHERE, LAME, MOST_ALIASES, NAME_ERROR, NOERROR, NXDOMAIN, SET, STRANGER,
                      TRUNCATED, WHOLE, carried, judge)

LAST_MOMENT = 2**62
OPT, FIRST_META, LAST_META = 41, 128, 255
ANY_CLASS = 255


@dataclass(eq=False)
class Waiting:
    """A waiting question: the aliases so far, the question now wanted, the moment of taking."""
    request: Request
    held: list
    wanted: Question
    taken: int


@dataclass(frozen=True)
class Ask:
    """A query on the way: the server and route, and the number of the try."""
    question: Question
    route: int
    server: int
    peer: str
    tries: int
    path: tuple
    id: int
    asked: int


class Forwarder:
    """The forwarder's memory. Moments are milliseconds, and never go back."""

    def __init__(self, configuration):
        self.configuration, self.limits = configuration, configuration.limits
        self.now, self.connections = 0, 0
        self.cache = Cache(self.limits["cache"])
        self.waiting, self.asks = [], []
        self.preferred = [0] * len(configuration.routes)
        self.words = []

    def step(self, moment, words, event, *given):
        """The actions of an event. A restart forgets everything, also the event's moment."""
        if event == "restart":
            self.__init__(self.configuration)
            return []
        self.now = max(self.now, min(moment, LAST_MOMENT))
        self.words = words
        does = {"client": self.on_client, "reply": self.on_reply, "failed": self.on_failed,
                "tick": self.on_tick}
        return does[event](*given)

    # A question of a client.

    def on_client(self, client, octets):
        """A client's message: dropped, unless a query (RFC 1035 4.1.1).

        Nothing after the question is looked at, and no flag but QR, opcode and RD.
        """
        if is_dropped(octets):
            return []
        header = read_header(octets)
        request = Request(client, header.id, header.opcode, header.rd, None)
        if header.opcode != 0:
            return [answers.failure(request, answers.BAD_OPCODE)]
        try:
            question = asked(octets)
        except Unreadable:
            return [answers.failure(request, answers.BAD_FORMAT)]
        request = replace(request, question=question)
        if not is_served(question):
            return [answers.failure(request, answers.NOT_SERVED)]
        if self.configuration.route_of(question.name) is None:
            return [answers.failure(request, answers.NO_ROUTE)]
        return self.on_question(request)

    def on_question(self, request):
        """Answers from the cache, or else joins or opens the inquiry of the missing name.

        Equal questions share an inquiry.
        """
        chain, end, name = self.look_up(request.question, [])
        if end != MISS:
            return [self.answered(request, chain, end)]
        wanted = replace(request.question, name=name)
        listed = self.ask_of(wanted)
        if self.configuration.route_of(name) is None:
            return [answers.failure(request, answers.NO_ROUTE)]
        if len(self.waiting) == self.limits["questions"]:
            return [answers.failure(request, answers.QUESTIONS_FULL)]
        if not listed and len(self.asks) == self.limits["inquiries"]:
            return [answers.failure(request, answers.INQUIRIES_FULL)]
        asks = [] if listed else self.open(wanted)
        if not listed and not asks:
            return [answers.failure(request, answers.NO_PORT)]
        self.waiting.append(Waiting(request, chain, wanted, self.now))
        return asks

    def look_up(self, question, held):
        """Follows a question through the cache at this moment."""
        def find(name, kind, class_):
            return self.cache.find(name, kind, class_, self.now, self.configuration)
        return look_up(question, held, find, self.cache.promote, self.configuration.denies)

    def answered(self, request, chain, end):
        """The reply for a question with a known end."""
        if end == LONG:
            return answers.failure(request, answers.CHAIN_LONG)
        rcode = NXDOMAIN if end in (LOCAL, NAME_ERROR) else NOERROR
        why = answers.LOCAL_DENIED if end == LOCAL else answers.ANSWERED
        return answers.answer(request, answers.aged(chain, self.now), rcode, why)

    # Asking.

    def ask_of(self, question):
        """The listed ask of an equal question, if any: so long is the inquiry open."""
        return next((ask for ask in self.asks if ask.question.same(question)), None)

    def listed(self, path):
        """The ask on a path, if any: until the close, also past the ask's time."""
        return next((ask for ask in self.asks if ask.path == path), None)

    def open(self, question):
        """The first ask of an inquiry: over UDP, to the server of the last accepted reply on this
        route, or otherwise to the first server."""
        route = self.configuration.route_of(question.name)
        return self.ask(question, route, self.preferred[route], 1, "udp")

    def ask(self, question, route, server, tries, transport):
        """A query with RD set, in the spelling of the question (RFC 5452 9.2); none without port.

        The identifier and port are drawn from the first word whose port is free. A TCP connection
        has the first word's identifier and the count of those before it since the restart.
        """
        words = self.words
        if transport == "udp":
            words = [word for word in words if not self.listed(("udp", port_of(word)))]
        if not words:
            return []
        if transport == "udp":
            path = ("udp", port_of(words[0]))
        else:
            path, self.connections = ("tcp", self.connections), self.connections + 1
        number, peer = words[0] % 65_536, self.configuration.routes[route].servers[server]
        self.asks.append(Ask(question, route, server, peer, tries, path, number, self.now))
        octets = write_message(Header(number, rd=True), question)
        return [(f"ask-{transport}", path[1], peer, octets)]

    def close(self, ask):
        """The ask is no longer listed, and its port is free."""
        self.asks.remove(ask)
        return [(f"close-{ask.path[0]}", ask.path[1])]

    def waiting_for(self, ask):
        """The questions of an inquiry, in the order of arrival."""
        return [each for each in self.waiting if each.wanted.same(ask.question)]

    def end(self, waiting):
        """The questions wait no longer."""
        self.waiting = [each for each in self.waiting if each not in waiting]

    # A reply of a server.

    def on_reply(self, path, peer, octets):
        """A reply counts if its ask has time left, and is followed to the end of its aliases."""
        ask = self.listed(path)
        if not ask or self.now >= ask.asked + self.limits["ask_ms"]:
            return []
        verdict = judge(ask, peer, octets)
        if verdict == STRANGER:
            return []
        if verdict != WHOLE:
            return self.fail(ask, verdict)
        pieces, end, name, sets = carried(read_message(octets), ask.question, ask.route,
                                          self.configuration)
        if end == LAME:
            return self.fail(ask, LAME)
        return self.accept(ask, pieces, end, name, sets)

    def accept(self, ask, pieces, end, name, sets):
        """Answers the questions of an inquiry or sends them on, and then keeps the pieces.

        The server is asked first from now on: the place in the group, not the address.
        """
        actions, waiting = self.close(ask), self.waiting_for(ask)
        self.preferred[ask.route] = ask.server
        new = [Kept(piece, self.now) for piece in pieces]
        if end == ELSEWHERE:
            actions += self.send_on(waiting, new, replace(ask.question, name=name))
        else:
            actions += [self.reply_to(each, new, end) for each in waiting]
            self.end(waiting)
        for piece in (*pieces, *sets):
            self.cache.offer(piece, self.now)
        return actions

    def reply_to(self, waiting, new, end):
        """The reply for a question whose end the server's reply has."""
        chain = waiting.held + new
        return self.answered(waiting.request, chain, LONG if len(chain) > MOST_ALIASES + 1 else end)

    def send_on(self, waiting, new, wanted):
        """Looks up the name after a reply's aliases, in the cache from before the reply.

        Questions still without answer join or open the inquiry of the missing name: the name is
        equal for all of them.
        """
        found = [self.look_on(wanted, each.held + new) for each in waiting]
        missing = [replace(wanted, name=name) for _, end, name in found
                   if end == MISS and self.configuration.route_of(name) is not None]
        asks = self.open(missing[0]) if missing and not self.ask_of(missing[0]) else []
        replies, ended = [], []
        for each, (chain, end, name) in zip(waiting, found):
            each.held, each.wanted = chain, replace(wanted, name=name)
            if end == MISS and self.ask_of(each.wanted):
                continue
            ended.append(each)
            replies.append(self.unanswered(each.request, name) if end == MISS
                           else self.answered(each.request, chain, end))
        self.end(ended)
        return replies + asks

    def unanswered(self, request, name):
        """The reply for a question with a missing name for which no server can be asked."""
        has_route = self.configuration.route_of(name) is not None
        return answers.failure(request, answers.NO_PORT if has_route else answers.NO_ROUTE)

    def look_on(self, wanted, held):
        """Follows a question after a reply's aliases; with nine aliases there is no look-up."""
        if len(held) > MOST_ALIASES:
            return held, LONG, wanted.name
        return self.look_up(wanted, held)

    # Failures and the time.

    def on_failed(self, path):
        """A broken path is a failed ask."""
        ask = self.listed(path)
        return self.fail(ask, "path") if ask else []

    def fail(self, ask, verdict):
        """A failed ask is closed, and the next try made if any is left.

        After a truncated reply over UDP the server is asked again over TCP (RFC 2181 9). After all
        further failures the next server of the group is asked over UDP, after the last the first.
        """
        closed, waiting = self.close(ask), self.waiting_for(ask)
        if ask.tries == self.limits["tries"]:
            replies = [self.give_up(each) for each in waiting]
            self.end(waiting)
            return closed + replies
        server, transport = ask.server, "tcp"
        if verdict != TRUNCATED or ask.path[0] == "tcp":
            servers = self.configuration.routes[ask.route].servers
            server, transport = (ask.server + 1) % len(servers), "udp"
        asks = self.ask(ask.question, ask.route, server, ask.tries + 1, transport)
        if asks:
            return closed + asks
        self.end(waiting)
        return closed + [answers.failure(each.request, answers.NO_PORT) for each in waiting]

    def give_up(self, waiting):
        """The reply after the last try: SERVFAIL, or a recently ended set (RFC 8767).

        At most eight aliases may lead there, the question's held aliases included, and none to a
        denied name. Nothing is promoted.
        """
        window = self.limits["stale_s"]

        def find(name, kind, class_):
            return self.cache.find_stale(name, kind, class_, self.now, window)
        if window:
            chain, end, _ = look_up(waiting.wanted, waiting.held, find, lambda entry: None,
                                    self.configuration.denies)
            if end == SET:
                found = answers.stale(chain[len(waiting.held):], self.now)
                return answers.answer(waiting.request, answers.aged(waiting.held, self.now) + found,
                                      NOERROR, answers.STALE)
        return answers.failure(waiting.request, answers.EXHAUSTED)

    def on_tick(self):
        """Serves the first due question or ask: of equal moments questions first, then the older.

        A question past its deadline fails; if no further question waits for the ask, the ask is
        closed. An ask past its time has failed.
        """
        due = [(each.taken + self.limits["deadline_ms"], 0, at, each)
               for at, each in enumerate(self.waiting)]
        due += [(ask.asked + self.limits["ask_ms"], 1, at, ask) for at, ask in enumerate(self.asks)]
        moment, is_ask, _, first = min(due, default=(self.now + 1, 0, 0, None))
        if moment > self.now:
            return []
        if is_ask:
            return self.fail(first, "time")
        self.end([first])
        ask = self.ask_of(first.wanted)
        closed = [] if self.waiting_for(ask) else self.close(ask)
        return closed + [answers.failure(first.request, answers.DEADLINE)]


def is_dropped(octets):
    """Whether a client's message is no query at all."""
    return not 12 <= len(octets) <= LONGEST_MESSAGE or read_header(octets).qr


def asked(octets):
    """The question of a client: a message has just one (RFC 1035 4.1.2, RFC 9619)."""
    return first_question(octets)


def is_served(question):
    """Types without data, types of questions alone, and class ANY are not served.

    They are 0, OPT (RFC 6891 6.1) and 128 to 255 (RFC 6895 3.1); class 255 is RFC 1035 3.2.5.
    """
    kind = question.kind
    is_data = kind not in (0, OPT) and not FIRST_META <= kind <= LAST_META
    return is_data and question.class_ != ANY_CLASS


def port_of(word):
    """The port drawn by a random word, of all from 1024 on; the low half is the identifier."""
    return 1024 + word // 65_536 % 64_512

"""The questions as a script for `forwarder replay`: the questions of clients and the replies of servers, with the
identifiers and ports that the replay draws."""
import pickle
import tempfile
from collections import defaultdict

from .content import MOST_ALIASES
from .judge import SERVFAIL
from .messages import code
from .times import MILLISECOND, SECOND
from .wording import clock, shown

MOST_LINES = 8000  # of a script, which may have 8,191
QUESTION, QUERY, REPLY, ENDING, ANSWER = "question", "query", "reply", "ending", "answer"  # methods of Script
LAST_PORT = 65535


class Scripts:
    """Keeps all events in a file without a name, until the chosen questions are known."""

    def __init__(self, path, settings):
        self.path, self.settings, self.wanted, self.different = path, settings, {}, {}
        self.numbers, self.clients, self.leads = {}, {}, defaultdict(set)
        self.file = tempfile.TemporaryFile()

    def put(self, kind, moment, asked, subject, *more):
        if asked is not None:
            pickle.dump((kind, moment, asked.same, self.number_of(subject), *more), self.file, 5)

    def number_of(self, each):
        return self.numbers.setdefault(id(each), (len(self.numbers), each))[0]

    # What comes.
    def question(self, question):
        client = f"udp {shown((question.peer[0], question.peer[1] or LAST_PORT))}"
        if question.is_over_tcp():
            client = f"tcp {self.clients.setdefault(id(question.client), len(self.clients))}"
        self.put(QUESTION, question.moment, question.asked, question, client, question.octets)

    def query(self, query):
        self.put(QUERY, query.moment, query.asked, query, query.transport)

    def reply(self, query, moment, source, octets, fits):
        sender = None if source == query.server else source
        self.put(REPLY, moment, query.asked, query, sender, octets, octets[:2] == query.identifier, fits)

    def lead(self, reply):
        if reply.leads:
            self.leads[reply.query.asked.key].add(reply.leads)

    def ending(self, query, moment):
        self.put(ENDING, moment, query.asked, query)

    def answer(self, question):
        if code(question.answer) == SERVFAIL or question.verdict.reason == 12:
            self.put(ANSWER, question.answered, question.asked, question)

    def choose(self, row):
        question = row.question
        if question.asked is None:
            return
        self.wanted[question.asked.key] = None
        if row.is_different():
            said = question.asked.key, question.moment, question.answer.hex(), row.verdict.why
            self.different[self.number_of(question)] = said

    # The scripts.
    def names(self):
        found = {key for key, *_ in self.different.values()} or set(self.wanted)
        for _ in range(MOST_ALIASES + 1):
            found |= {lead for name in found for lead in self.leads.get(name, ())}
        return found

    def write(self):
        names, scripts, size = self.names(), [], self.file.tell()
        self.file.seek(0)
        while self.file.tell() < size:
            event = pickle.load(self.file)
            if event[2][0] in names:
                if not scripts or len(scripts[-1].lines) > MOST_LINES:
                    scripts.append(Script(self.settings))
                kind, *rest = event
                getattr(scripts[-1], kind)(*rest)
        chosen = [each for each in scripts if each.at.keys() & self.different.keys()] or scripts
        for number, script in enumerate(chosen, 1):
            path = self.path if len(chosen) == 1 else f"{self.path}.{number}"
            with open(path, "w", encoding="utf-8", newline="\n") as file:
                file.write(script.text(self.different))


class Script:
    """A script that begins with an empty cache. `caused` has, by name and type, the line that causes the next query,
    `latest` is the last reply, whose aliases may have caused one; `paths` has the path, identifier and server of each
    query, `prefers` the place of each route's server, `at` the line of each question."""

    def __init__(self, settings):
        self.settings, self.lines, self.base = settings, [], None
        self.caused, self.paths, self.prefers, self.last, self.streams = {}, {}, {}, {}, 0
        self.at, self.latest = {}, None

    def put(self, moment, text):
        self.base = moment if self.base is None else self.base
        self.lines.append(f"{1000 + max(0, moment - self.base) // MILLISECOND} {text}")
        return len(self.lines)

    def question(self, moment, key, number, client, octets):
        self.at[number] = line = self.put(moment, f"client {client} {octets.hex() or '-'}")
        self.caused.setdefault(key, line)

    def query(self, moment, key, number, transport):
        """A query is drawn at the line that causes it: a question, a reply, or the end of a try's time."""
        before = self.last.get(key)
        line = self.caused.pop(key, None) or (self.latest if before is None else self.put(moment, "tick"))
        if line is None:
            return
        route = self.settings.route_of(key[0])
        if before not in self.paths:
            place = self.prefers.get(route.suffix, 0)
        else:  # the next server after a failure, the same one after a cut reply
            place = self.paths[before][2]
            place = place if transport == "tcp" else (place + 1) % len(route.servers)
        path = f"udp {1024 + 8 * line % 64512}"
        if transport == "tcp":
            path, self.streams = f"tcp {self.streams}", self.streams + 1
        self.last[key] = number
        self.paths[number] = path, (8 * line % 65536).to_bytes(2, "big"), place, route.servers[place]

    def reply(self, moment, key, number, source, octets, is_same, fits):
        if number not in self.paths:
            return
        path, identifier, place, server = self.paths[number]
        identifier = identifier if is_same else bytes(255 - each for each in identifier)
        line = self.put(moment, f"reply {path} {shown(source or server)} {(identifier + octets[2:]).hex() or '-'}")
        if fits and self.last.get(key) == number:
            self.caused[key] = line
            if code(octets) in (0, 3):
                self.prefers[self.settings.route_of(key[0]).suffix] = place
                self.forget(key)
                self.latest = line

    def forget(self, key):
        self.last.pop(key, None)
        self.caused.pop(key, None)

    def ending(self, moment, key, number):
        if number in self.paths and self.last.get(key) == number:
            self.caused[key] = self.put(moment, f"failed {self.paths[number][0]}")

    def answer(self, moment, key, number):
        """A failure leaves when the last try is over."""
        self.put(moment, "tick")
        self.forget(key)

    def text(self, different):
        heads = [f"# forwarder-explain: a script for forwarder replay, from {clock(self.base // SECOND * SECOND)} on"]
        for number, (_, moment, octets, why) in different.items():
            if number in self.at:
                heads.append(f"# line {self.at[number]}, {clock(moment)}: answered {octets}")
                heads.append(f"# which is different: {why}")
        return "\n".join([*heads, self.settings.text.removesuffix("\n"), "---", *self.lines, ""])

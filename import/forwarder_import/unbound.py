"""Reads unbound.conf, with included files: see unbound.conf(5)."""
import ipaddress
import re
from dataclasses import dataclass, field

from .files import Line, Refused
from .names import (
    LOCAL_ZONES, OF_SHARED, cut, ipv4_of, keep, key_of, peer_of, port_of, suffix_of)
from .rows import Row
from .tables import Options
from .unbound_local import WITH_LAN, Local, LocalZones

UNBOUND = Options("unbound", "unbound")
TOKEN = re.compile(
    r"""\s*(?:"(?P<double>[^"]*)"|'(?P<single>[^']*)'|(?P<open>["'])|(?!\#)(?P<word>[^\s"']+))""")
KEY = re.compile(r"([a-z][a-z0-9-]*):(.*)", re.S)
TLS = {"forward-tls-upstream", "forward-ssl-upstream", "stub-tls-upstream", "stub-ssl-upstream"}
TLS_OF_ALL = {"tls-upstream", "ssl-upstream"}


@dataclass
class Statement:
    """A key with values."""

    key: str
    line: Line
    values: list[str] = field(default_factory=list)

    def value(self):
        if len(self.values) != 1:
            raise Refused("it has to have one value")
        return self.values[0]

    def shown(self):
        """The line, with the statement as text."""
        words = [each if re.fullmatch(r"\S+", each) else f'"{each}"' for each in self.values]
        return Line(self.line.path, self.line.number, " ".join([f"{self.key}:", *words]))


class Unbound:
    """Reads all files of an unbound."""

    def __init__(self, files, found):
        self.files, self.found = files, found
        self.first, self.statements = None, []
        self.stale = {}  # the statements of `serve-expired`
        self.nodefault = set()  # keys of zones unbound does not deny by itself
        self.zones = set()  # keys of zones with a server
        self.local = LocalZones(found, self.zones)

    def read(self, path):
        """Takes the statements of a file; `end` carries them."""
        self.first = self.first or Line(path, 0)
        self.gather(path, None)

    def gather(self, path, by):
        """Gathers the statements of a file and of included files, in order."""
        with self.files.lines(path, by) as lines:
            for line in lines:
                with self.found.refusing(line):
                    for token, is_quoted in tokens_of(line.text):
                        self.take(token, is_quoted, line)

    def take(self, token, is_quoted, line):
        """Takes a word: a key, or a value of the key before."""
        last = self.statements[-1] if self.statements else None
        wants_value = last is not None and not last.values and last.key not in UNBOUND.clauses
        key = None if is_quoted or wants_value else KEY.fullmatch(token)
        if key:
            self.statements.append(Statement(key[1], line, [key[2]] if key[2] else []))
        elif last is None or last.key in UNBOUND.clauses:
            raise Refused(f"{token} has no key before it")
        else:
            last.values.append(token)
        if (self.statements[-1].key in ("include", "include-toplevel") and
                self.statements[-1].values):
            self.include(self.statements.pop())

    def include(self, statement):
        if statement.key == "include-toplevel":
            self.statements.append(Statement("server", statement.line))
        for path in self.files.paths(statement.value(), statement.line):
            with self.found.refusing(statement.shown()):
                self.gather(path, statement.line)

    def end(self, _):
        """Carries all statements, clause by clause."""
        is_encrypted = any(each.key in TLS_OF_ALL and is_yes(each) for each in self.statements)
        clause, zone = None, []
        for statement in [*self.statements, Statement("server", self.first)]:
            if statement.key not in UNBOUND.clauses:
                zone.append(statement)
                continue
            self.clause(clause, zone, is_encrypted)
            clause, zone = statement, []
        self.special_names()
        self.local.settle(self.files.place)
        self.stale_answers()
        self.without_a_line()

    def clause(self, clause, statements, is_encrypted):
        """Carries the statements of a clause."""
        kind = clause.key if clause else None
        if kind in ("forward-zone", "stub-zone"):
            try:
                Zone(clause, statements, self).carry(is_encrypted)
            except Refused as refused:
                for each in [clause, *statements]:
                    self.found.refuse(each.shown(), refused)
            return
        for statement in statements:
            with self.found.refusing(statement.shown()):
                if kind == "server":
                    self.setting(statement)
                elif (kind, statement.key) == ("auth-zone", "name"):
                    self.found.own_zone(statement.value(), statement.shown())
                elif (kind, statement.key) == ("view", "local-zone"):
                    self.of_view(statement)
                else:
                    raise of_clause(kind)

    def setting(self, statement):
        key, line = statement.key, statement.shown()
        if key in ("interface", "ip-address"):
            address, mark, port = statement.value().partition("@")
            self.found.listen(ipv4_of(address), port_of(port) if mark else None, line)
        elif key == "port":
            self.found.set_port(statement.value(), line)
        elif key == "local-zone":
            self.local_zone(statement, line)
        elif key in ("serve-expired", "serve-expired-ttl"):
            if key in self.stale:
                self.found.pass_over(self.stale[key].shown(), "a later line decides")
            self.stale[key] = statement
        elif key in ("local-data", "local-data-ptr"):
            self.found.record(names_of_data(statement), line, UNBOUND.left_out(key))
        else:
            UNBOUND.settle(self.found, key, " ".join(statement.values).lower(), line)

    def of_view(self, statement):
        """A local zone of a view. Nobody is asked for its names until the view has a service."""
        if len(statement.values) == 2 and statement.values[1] not in UNBOUND.transparent:
            route = self.found.route(statement.values[0])
            route.lost.append((statement.shown(), of_clause("view")))
        else:
            raise of_clause("view")

    def local_zone(self, statement, line):
        """A zone nobody is asked about, or an exception."""
        if len(statement.values) != 2:
            raise Refused("it has to have a zone and a type")
        zone, kind = statement.values
        if kind == "nodefault":
            self.found.pass_over(line, "no route denies it")
            self.nodefault.add(key_of(suffix_of(zone)))
            return
        suffix = suffix_of(zone)
        denies = kind in UNBOUND.denying or kind in UNBOUND.redirecting
        self.local.add(key_of(suffix), Local(suffix, line, denies, kind in UNBOUND.transparent))
        if kind in UNBOUND.denying:
            self.found.deny(zone, line, UNBOUND.denying[kind])
        elif kind in UNBOUND.redirecting:
            what = "write a route to a name server that has its names"
            self.found.route(zone).lost.append((line, Refused(what, Row.RECORDS)))
        elif kind not in UNBOUND.transparent:
            raise Refused(
                "write a route that denies it, or one to a name server that has its names",
                Row.RECORDS)

    def stale_answers(self):
        """Carries how long an expired record set may be answered: 0 is for ever."""
        switch, window = self.stale.get("serve-expired"), self.stale.get("serve-expired-ttl")

        def text():
            seconds = window.value() if window else "0"
            return "999999" if seconds == "0" else seconds

        self.found.stale(switch and switch.shown(), bool(switch) and is_yes(switch),
                         window and window.shown(), text, "serve-expired: yes")

    def without_a_line(self):
        """Notes what unbound does without a line."""
        if "." not in self.zones:
            what = "names without a forward-zone are resolved from the root: write a route `.`"
            self.found.leave(self.first, what, Row.ITERATING)

    def special_names(self):
        """Denies the names unbound denies without a line. The last `unblock-lan-zones` decides."""
        of_lan = [each for each in self.statements if each.key == "unblock-lan-zones"]
        is_open = bool(of_lan) and is_yes(of_lan[-1])
        self.local.add_defaults(
            self.first, self.nodefault | (set(LOCAL_ZONES) - WITH_LAN if is_open else set()))
        if not is_open:
            self.found.leave(self.first, f"unbound denies names {OF_SHARED}", Row.SPECIAL)


class Zone:
    """The statements of a forward-zone or stub-zone."""

    def __init__(self, clause, statements, reader):
        self.clause, self.statements = clause, statements
        self.reader, self.found = reader, reader.found
        self.kind = clause.key.partition("-")[0]

    def carry(self, is_encrypted):
        names = [each for each in self.statements if each.key == "name"]
        if len(names) != 1:
            raise Refused("the zone has to have one name")
        suffix = names[0].value()
        if key_of(suffix.rstrip(".") or ".") in self.reader.zones:
            raise Refused(
                f"the zone {suffix} is there already, and only the first counts: write all servers"
                " into it")
        route = self.found.route(suffix)
        route.named.append(names[0].shown())
        self.reader.zones.add(key_of(route.suffix))
        is_encrypted = is_encrypted or any(each.key in TLS and is_yes(each)
                                           for each in self.statements)
        for statement in self.statements:
            with self.found.refusing(statement.shown()):
                self.take(statement, route, is_encrypted)
        if not route.servers and not route.lost:
            route.lost.append((self.clause.shown(), Refused(f"the zone {suffix} has no server")))

    def take(self, statement, route, is_encrypted):
        part, line = statement.key.removeprefix(f"{self.kind}-"), statement.shown()
        if part in ("addr", "host"):
            remark = "a referral is no answer" if self.kind == "stub" else ""

            def peer():
                met = peer_of(*cut(statement.value().partition("#")[0], "@"), is_encrypted)
                if "#" in statement.value():
                    self.found.pass_over(line,
                                         "what follows # is a name for TLS, which is off there")
                return met

            self.found.serve(route.suffix, peer, line, remark)
        elif statement.key in TLS and is_yes(statement):
            self.found.leave(line, "queries are never encrypted: see the lines of the servers")
        elif part in ZONE_SETTINGS and not is_yes(statement):
            self.found.pass_over(line, "so it is here")
        elif part in ZONE_SETTINGS:
            raise Refused(*ZONE_SETTINGS[part])
        elif statement.key != "name":
            raise Refused(
                f"it is no setting of a {self.clause.key} that is known here: {keep('unbound')}")


ZONE_SETTINGS = {
    "tls-upstream": ("", None), "ssl-upstream": ("", None),
    "first": ("it is not resolved from the root if its servers fail", Row.ITERATING),
    "prime": ("its servers are those that are written", Row.ITERATING),
    "no-cache": ("its answers are cached, too", Row.TTL),
    "tcp-upstream": ("servers are asked by UDP first: let UDP through", None)}


def names_of_data(statement):
    """The name of an own record of unbound, if the text has a record's form."""
    word = " ".join(statement.values).split()[:1]
    if statement.key == "local-data" or not word:
        return [each.removesuffix(".") for each in word]
    try:
        return [ipaddress.ip_address(word[0]).reverse_pointer]
    except ValueError:
        return []


def of_clause(kind):
    """Why a statement of a clause is left out; `kind` is None before the first clause."""
    if kind is None:
        return Refused("it is of no clause: write it below the line of its clause")
    row = Row[UNBOUND.clauses[kind]] if UNBOUND.clauses[kind] else None
    return Refused(f"it is of the clause {kind}" + ("" if row else f": {keep('unbound')}"), row)


def is_yes(statement):
    return statement.values == ["yes"]


def tokens_of(text):
    """The words of a line, and whether each was quoted."""
    place = 0
    while found := TOKEN.match(text, place):
        place = found.end()
        if found["open"]:
            raise Refused("a quotation mark is not closed")
        if found["word"]:
            yield found["word"], False
        elif found["double"] is not None or found["single"] is not None:
            yield found["double"] or found["single"] or "", True

"""Reads BIND's named.conf, with included files: see named.conf(5)."""
import re

from .bind_statements import statements_of
from .files import Line, Refused
from .found import LocalZone
from .names import (
    LISTEN, LOCAL_ZONES, OF_SHARED, ipv4_of, keep, key_of, peer_of, port_of, seconds_of, suffix_of)
from .rows import Row
from .tables import Options

BIND = Options("bind", "named")
NOT_FROM_ROOT = "names are not resolved from the root if no server answers"


class Bind:
    """Reads all files of a named."""

    def __init__(self, files, found):
        self.files, self.found = files, found
        self.first, self.stale = None, {}
        self.zones, self.has_empty_zones = set(), True
        self.not_empty = set()  # zones of `disable-empty-zone`
        self.lists, self.copies = {}, []  # of `primaries`, and zones with servers
        self.forwarding = []  # the statements `forwarders` and `forward` of `options`

    def read(self, path, by=None):
        """Carries the statements of a file, included by the line `by`."""
        self.first = self.first or Line(path, 0)
        with self.files.lines(path, by) as lines:
            for statement in statements_of(lines):
                self.each(statement, self.top)

    def each(self, statement, call):
        """Has a statement carried, or the statements of an included file."""
        with self.found.refusing(statement.line):
            if statement.words[0] == "include":
                self.include(statement, call)
            else:
                call(statement)

    def include(self, statement, call):
        """Has the statements of included files carried."""
        for path in self.files.paths(statement.value(), statement.line):
            with self.files.lines(path, statement.line) as lines:
                for each in statements_of(lines):
                    self.each(each, call)

    def top(self, statement):
        if statement.words[0] == "options":
            for each in statement.block:
                self.each(each, self.option)
        elif statement.words[0] == "zone":
            self.zone(statement)
        elif statement.words[0] in BIND.lists and len(statement.words) > 1:
            self.lists[statement.words[1]] = statement
            self.found.pass_over(statement.line,
                                 "its addresses are those of the zones that name it")
        elif statement.words[0] == "view":
            self.found.refuse(statement.line, BIND.left_out("view"))
            for each in statement.block:
                self.each(each, self.of_view)
        else:
            raise BIND.left_out(statement.words[0])

    def of_view(self, statement):
        """A statement of a view. Nobody is asked for its zones until the view has a service."""
        refused = Refused("it is of a view: write what it says into the file of that view", Row.WHO)
        if statement.words[0] != "zone" or kind_of(statement) == "hint":
            raise refused
        self.found.route(suffix_of(statement.value())).lost.append((statement.line, refused))

    def option(self, statement):
        key, words = statement.words[0], statement.words[1:]
        if key == "forwarders":
            self.forwarding.append(statement)
            self.forwarders(".", statement)
        elif key == "forward":
            self.forwarding.append(statement)
            self.forward(statement)
        elif key in ("listen-on", "listen-on-v6"):
            self.listen(statement)
        elif key == "port":
            self.found.set_port(statement.value(), statement.line)
        elif key in ("stale-answer-enable", "max-stale-ttl"):
            if key in self.stale:
                self.found.pass_over(self.stale[key].line, "a later line decides")
            self.stale[key] = statement
        elif key == "disable-empty-zone":
            self.not_empty.add(key_of(suffix_of(statement.value())))
            self.found.pass_over(statement.line, "no route denies it")
        elif key == "empty-zones-enable" and words == ["no"]:
            self.has_empty_zones = False
            self.found.pass_over(statement.line, "so it is here")
        else:
            BIND.settle(self.found, key, " ".join(words), statement.line)

    def forward(self, statement):
        """Whether names are resolved from the root if no forwarder answers."""
        if statement.words[1:] != ["only"]:
            raise Refused(NOT_FROM_ROOT, Row.ITERATING)
        self.found.pass_over(statement.line, "so it is here")

    def forward_by_default(self, statements):
        """Names the forwarders of `options` or of a zone without `forward`: `forward first` is the
        default. A zone does not take the `forward` of `options`."""
        if any(each.words[0] == "forward" for each in statements):
            return
        for each in statements:
            if each.words[0] == "forwarders" and each.blocks and each.block:
                self.found.leave(each.line, f"`forward first` is the default: {NOT_FROM_ROOT}",
                                 Row.ITERATING)

    def forwarders(self, suffix, statement):
        port_of_all = after(statement.words, "port")
        is_encrypted = after(statement.words, "tls")
        for each in statement.block:
            address, port = each.words[0], after(each.words, "port") or port_of_all or "53"
            tls = is_encrypted or after(each.words, "tls")
            self.found.serve(suffix, lambda: peer_of(address, port, tls), each.line)

    def listen(self, statement):
        """Addresses of this machine; `any` for all of them."""
        if statement.words[0] == "listen-on-v6":
            if [each.words for each in statement.block] == [["none"]]:
                self.found.pass_over(statement.line, "so it is here")
                return
            raise Refused("", Row.IPV6)
        if after(statement.words, "tls") or after(statement.words, "http"):
            raise BIND.left_out("tls")
        port = after(statement.words, "port")
        port = port_of(port) if port else None
        for each in statement.block:
            with self.found.refusing(each.line):
                self.address(each, port)

    def address(self, statement, port):
        """An element of `listen-on`."""
        word = " ".join(statement.words)
        if word == "any":
            self.found.listen("0.0.0.0", port, statement.line)
        elif word == "none":
            raise Refused("named listens at no address of IPv4")
        elif not re.fullmatch(r"[0-9.]+", word):
            raise Refused(f"write the address in `listen` that {word} stands for", Row.LISTENING)
        else:
            self.found.listen(ipv4_of(word), port, statement.line)

    def zone(self, statement):
        """A zone: forwarded, or kept by the server."""
        suffix = suffix_of(statement.words[1]) if len(statement.words) > 1 else ""
        kind = kind_of(statement)
        if not suffix or not kind:
            raise Refused("the zone has to have a name and a type")
        if [word.upper() for word in statement.words[2:]] not in ([], ["IN"]):
            raise Refused("names of the class IN alone are asked")
        if suffix.lower() in self.zones:
            raise Refused(f"the zone {suffix} is there already: write all servers into one")
        self.zones.add(suffix.lower())
        if kind == "forward":
            self.forwarded(suffix, statement)
        elif kind == "hint":
            raise Refused("write a route `.` to servers that resolve", Row.ITERATING)
        elif kind in BIND.with_servers and suffix != ".":
            self.copies.append((suffix, kind, statement))
        elif kind in BIND.kept or kind in BIND.with_servers:
            self.found.own_zone(suffix, statement.line)
        else:
            raise Refused(f"{kind} is no type of a zone that is known here: {keep('named')}")

    def forwarded(self, suffix, statement):
        route = self.found.route(suffix)
        route.named.append(statement.line)
        for each in statement.block:
            with self.found.refusing(each.line):
                if each.words[0] == "forwarders":
                    self.forwarders(suffix, each)
                elif each.words[0] == "forward":
                    self.forward(each)
                elif each.words[0] != "type":
                    raise BIND.left_out(each.words[0])
        self.forward_by_default(statement.block)
        if not route.servers and not route.lost:
            what = f"{suffix} has no forwarder, so it is resolved from the root"
            route.lost.append((statement.line, Refused(what, Row.ITERATING)))

    def end(self, _):
        """Carries zones with servers and expired answers. Notes what named does by itself."""
        for copy in self.copies:
            self.copied(*copy)
        self.stale_answers()
        if not self.found.addresses:
            what = "without `listen-on` named listens at all addresses"
            self.found.leave(self.first, f"{what}: {LISTEN}", Row.LISTENING)
        self.forward_by_default(self.forwarding)
        if not any(each.words[0] == "forwarders" and each.block for each in self.forwarding):
            what = "names without a forwarder are resolved from the root: write a route `.`"
            self.found.leave(self.first, what, Row.ITERATING)
        self.empty_zones()

    def copied(self, suffix, kind, statement):
        """A zone with named servers, or a copy of such a zone: the servers are asked."""
        route = self.found.route(suffix)
        route.named.append(statement.line)
        remark = "a referral is no answer" if "stub" in kind else f"of a {kind} zone"
        for each in statement.block:
            if each.words[0] in (*BIND.lists, "server-addresses"):
                for address, port, tls, line in self.addresses(each, set()):
                    self.found.serve(suffix, lambda: peer_of(address, port, tls), line, remark)
            elif each.words[0] == "server-names":
                names = ", ".join(name.words[0] for name in each.block)
                what = f"{names}: write the addresses of these names"
                route.lost.append((each.line, Refused(what, Row.NAMED)))
            elif each.words[0] != "type":
                self.found.pass_over(each.line, "it is of a copy of the zone")
        if not route.servers and not route.lost:
            what = f"the {kind} zone {suffix} names no server"
            route.lost.append((statement.line, Refused(what, Row.RECORDS)))

    def addresses(self, statement, within):
        """The addresses of a list, each with port, whether asked over TLS, and line."""
        port = after(statement.words, "port") or "53"
        for each in statement.block:
            name, tls = each.words[0], "tls" in (*statement.words, *each.words)
            if name in self.lists and name not in within:
                yield from self.addresses(self.lists[name], within | {name})
            else:
                yield name, after(each.words, "port") or port, tls, each.line

    def empty_zones(self):
        """Denies the names that named denies without a line: none with `forward only`."""
        is_set = any(each.words[0] == "forwarders" and each.block for each in self.forwarding)
        is_only = any(each.words == ["forward", "only"] for each in self.forwarding)
        if not self.has_empty_zones or (is_set and is_only):
            return
        for zone in [*LOCAL_ZONES, *BIND.also_empty]:
            if zone not in self.not_empty:
                remark = "named denies it by itself without `forward only`"
                self.found.local.append(LocalZone(zone, self.first, "", remark))
        self.found.leave(self.first, f"named denies names {OF_SHARED}", Row.SPECIAL)

    def stale_answers(self):
        """Carries how long an expired record set may be answered."""
        switch, window = self.stale.get("stale-answer-enable"), self.stale.get("max-stale-ttl")
        is_on = bool(switch) and switch.words[1:] in (["yes"], ["true"], ["1"])
        self.found.stale(switch and switch.line, is_on, window and window.line,
                         lambda: str(seconds_of(window.value())) if window else "86400",
                         "stale-answer-enable yes")


def kind_of(zone):
    """The type of a zone, or an empty word."""
    return next((each.value() for each in zone.block if each.words[0] == "type"), "")


def after(words, key):
    """The word after a key, or an empty word."""
    return words[words.index(key) + 1] if key in words[:-1] else ""

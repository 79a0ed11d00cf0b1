"""The local zones of unbound. The nearest at or above a name decides before any server is asked."""
from dataclasses import dataclass

from .files import Line, Refused
from .found import LocalZone, Value
from .names import LOCAL_ZONES, keys_above, nearest
from .rows import Row

BY_ITSELF = "unbound denies it by itself"
SPECIAL = ("localhost", "invalid", "test", "onion", "home.arpa")  # RFC 6761, 7686, 8375
WITH_LAN = {"127.in-addr.arpa", "1." + "0." * 31 + "ip6.arpa"}  # of the addresses, also unblocked


@dataclass(frozen=True)
class Local:
    """A local zone: whether names are denied, or asked; neither in a zone with data."""

    suffix: str
    line: Line
    denies: bool = False
    asks: bool = False
    is_default: bool = False


class LocalZones:
    """The local zones of an unbound, by key."""

    def __init__(self, found, zones):
        self.found, self.zones = found, zones  # `zones` are the keys of zones with servers
        self.all = {}

    def add(self, key, local):
        """Adds a zone. The last line of a zone decides."""
        before = self.all.get(key)
        if before:
            self.found.pass_over(before.line, "a later line decides")
            self.found.undo_denial(key, before.line)
        self.all[key] = local

    def add_defaults(self, line, without):
        """Adds the local zones unbound has without a line, except for some."""
        for zone in [*LOCAL_ZONES, *SPECIAL]:
            if zone not in self.all and zone not in without:
                self.all[zone] = Local(zone, line, denies=True, is_default=True)
                of_denial = "there 127.0.0.1, here NXDOMAIN" if zone == "localhost" else ""
                self.found.local.append(LocalZone(zone, line, of_denial, BY_ITSELF))

    def settle(self, place):
        """Has zones with servers follow the local zones. `place` returns the place of a line."""
        for key, local in self.all.items():
            if local.asks:
                self.ask(key, local)
        for key in sorted(self.zones):
            local = nearest(self.all, key)
            if local and not local.asks and not local.is_default:
                self.found.deny(key, local.line)
                because = (
                    f", since unbound's local zone {local.suffix} at {place(local.line)} decides"
                    " first")
                self.found.routes[key].because = because

    def ask(self, key, local):
        """Has the names of a zone asked. Below a denying zone, they need a route with servers."""
        carried = (self.all[above] for above in keys_above(key) if above in self.all)
        above = next((each for each in carried if each.denies or each.asks), None)
        if key in self.zones or above is None or above.asks:
            self.found.pass_over(local.line, "its names are asked like others")
            return
        route = self.found.route(local.suffix)
        source = next((self.found.routes[each] for each in keys_above(key) if each in self.zones),
                      None)
        for text, server in source.servers.items() if source else ():
            route.servers[text] = Value("", [local.line], server.remark)
        if not route.servers:
            where = f"{local.suffix} is asked there, below {above.suffix}, which is denied"
            what = f"{where}: write a route with its servers"
            route.lost.append((local.line, Refused(what, Row.ITERATING)))

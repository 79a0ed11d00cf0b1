"""The content of a configuration, or the reported fault: the first in the order below."""
import re
import tomllib
from dataclasses import dataclass

from .messages import LONGEST_LABEL, LONGEST_NAME, is_under, key, length_of

TOML, VERSION, MISSING_KEY, WRONG_KIND, BAD_NAME, BAD_PEER, RANGE = range(1, 8)
TWICE_SUFFIX, TOO_MANY_ROUTES, NO_SERVERS, UNKNOWN_KEY = range(8, 12)
DENY_WITH_SERVERS = 13

MOST_ROUTES, MOST_SERVERS, DEEPEST = 64, 8, 80
# Each limit's default, least and greatest value. Version 1 has no `stale_s`.
LIMITS = {
    "questions": (1024, 1, 4096),
    "inquiries": (256, 1, 1024),
    "cache": (4096, 1, 65_536),
    "tries": (4, 1, 16),
    "ask_ms": (1500, 100, 10_000),
    "deadline_ms": (8000, 500, 30_000),
    "stale_s": (0, 0, 86_400),
}
NUMBER = r"(?:0|[1-9][0-9]{0,4})"
PEER = re.compile(rf"({NUMBER})\.({NUMBER})\.({NUMBER})\.({NUMBER}):({NUMBER})")
LABEL = re.compile(rf"[A-Za-z0-9_-]{{1,{LONGEST_LABEL}}}")


class Refused(Exception):
    """A configuration is refused; its argument is the number of the fault."""


@dataclass(frozen=True)
class Route:
    """The servers of the names under a suffix, or that they are denied without asking."""
    suffix: tuple
    servers: tuple
    deny: bool


@dataclass(frozen=True)
class Configuration:
    """The routes in their order, and the limits by name."""
    routes: list
    limits: dict

    def route_of(self, name):
        """The number of the route whose suffix is the longest that the name is under, or None."""
        fitting = [at for at, route in enumerate(self.routes) if is_under(name, route.suffix)]
        return max(fitting, key=lambda at: len(self.routes[at].suffix), default=None)

    def denies(self, name):
        """Whether the name is on a route that denies all its names."""
        route = self.route_of(name)
        return route is not None and self.routes[route].deny


def is_peer(text):
    """Whether a text is an IPv4 address and a port from 1 on, no number with a zero in front."""
    found = PEER.fullmatch(text)
    if not found:
        return False
    *address, port = map(int, found.groups())
    return max(address) <= 255 and 1 <= port <= 65_535


def name_of(text):
    """The name that a text spells, None if it spells none: labels with dots between, and at most
    one dot at the end; a dot alone is the root."""
    if text == ".":
        return ()
    labels = text.removesuffix(".").split(".")
    if not all(LABEL.fullmatch(label) for label in labels):
        return None
    name = tuple(label.encode() for label in labels)
    return name if length_of(name) <= LONGEST_NAME else None


def refuse_if(refused, fault):
    """Reports a fault."""
    if refused:
        raise Refused(fault)


def of_kind(table, name, kind):
    """The value of a key that has to be there, and of this kind."""
    refuse_if(name not in table, MISSING_KEY)
    refuse_if(type(table[name]) is not kind, WRONG_KIND)
    return table[name]


def read_toml(octets):
    """The top table. The octets have to be UTF-8; integers have 64 bits, and arrays and tables are
    at most 80 deep in one another: TOML sets no limits, and leaves these to its readers."""
    try:
        table = tomllib.loads(octets.decode("utf-8"))
    except (UnicodeDecodeError, tomllib.TOMLDecodeError, RecursionError) as fault:
        raise Refused(TOML) from fault
    refuse_if(not is_held(table, DEEPEST), TOML)
    return table


def is_held(value, depth):
    """Whether a TOML value has integers of 64 bits alone, and is not deeper than this."""
    if type(value) is int:
        return -2**63 <= value < 2**63
    if isinstance(value, (dict, list)):
        inner = value.values() if isinstance(value, dict) else value
        return depth >= 0 and all(is_held(each, depth - 1) for each in inner)
    return True


def read_limits(top, version):
    """The limits: each is the default if its key is not there."""
    table = of_kind(top, "limits", dict) if "limits" in top else {}
    known = [name for name in LIMITS if version == 2 or name != "stale_s"]
    refuse_if(set(table) - set(known), UNKNOWN_KEY)
    limits = {name: default for name, (default, _, _) in LIMITS.items()}
    for name in filter(table.__contains__, known):
        limits[name] = of_kind(table, name, int)
        refuse_if(not LIMITS[name][1] <= limits[name] <= LIMITS[name][2], RANGE)
    return limits


def read_servers(table):
    """The servers of a route: one to eight peers, the first asked first, one of them twice too."""
    servers = of_kind(table, "servers", list)
    refuse_if(not servers, NO_SERVERS)
    refuse_if(len(servers) > MOST_SERVERS, RANGE)
    for server in servers:
        refuse_if(type(server) is not str, WRONG_KIND)
        refuse_if(not is_peer(server), BAD_PEER)
    return tuple(servers)


def read_route(table, version, earlier):
    """A route. One that denies has no servers; version 1 has no such routes."""
    refuse_if(type(table) is not dict, WRONG_KIND)
    known = {"suffix", "servers", "deny"} if version == 2 else {"suffix", "servers"}
    refuse_if(set(table) - known, UNKNOWN_KEY)
    suffix = name_of(of_kind(table, "suffix", str))
    refuse_if(suffix is None, BAD_NAME)
    refuse_if(key(suffix) in [key(route.suffix) for route in earlier], TWICE_SUFFIX)
    deny = of_kind(table, "deny", bool) if "deny" in table else False
    refuse_if(deny and "servers" in table, DENY_WITH_SERVERS)
    return Route(suffix, () if deny else read_servers(table), deny)


def read_configuration(octets):
    """The configuration that the octets spell, or Refused with its first fault."""
    top = read_toml(octets)
    version = of_kind(top, "version", int)
    refuse_if(version not in (1, 2), VERSION)
    refuse_if(set(top) - {"version", "listen", "limits", "route"}, UNKNOWN_KEY)
    refuse_if("listen" in top and not is_peer(of_kind(top, "listen", str)), BAD_PEER)
    limits = read_limits(top, version)
    tables = of_kind(top, "route", list)
    refuse_if(not tables, MISSING_KEY)
    refuse_if(len(tables) > MOST_ROUTES, TOO_MANY_ROUTES)
    routes = []
    for table in tables:
        routes.append(read_route(table, version, routes))
    return Configuration(routes, limits)

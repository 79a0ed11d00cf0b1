"""A configuration of the forwarder: see forwarder.toml(5)."""
import ipaddress
import re
import tomllib
from typing import NamedTuple

from .files import Unreadable, shown
from .found import LIMITS
from .names import key_of, keys_above, nearest


class Route(NamedTuple):
    """A suffix with its servers; without servers the names are denied."""

    suffix: str
    servers: list


class Configuration:
    """The values of a text. `comments` are the comments down to `listen` or to the first table."""

    def __init__(self, text):
        table = tomllib.loads(text)
        self.listen = peer_of(table.get("listen", "127.0.0.1:53"))
        given = table.get("limits", {})
        self.limits = {key: int(given.get(key, LIMITS[key].default)) for key in LIMITS}
        self.routes = [
            Route(each["suffix"].removesuffix(".") or ".", [*map(peer_of, each.get("servers", ()))])
            for each in table["route"]
        ]
        head = re.match(r"(?s).*?^listen\b[^\n]*|.*?(?=^\[)|.*", text, re.M)[0].splitlines()
        self.comments = [line.partition("#")[2].strip() for line in head if "#" in line]
        self.by_key = {key_of(route.suffix): route for route in self.routes}

    def above(self, route):
        """The route of the nearest shorter suffix; none if there is none."""
        above = next(keys_above(route.suffix), None)
        return above and nearest(self.by_key, above)


def peer_of(text):
    address, _, port = text.partition(":")
    return ipaddress.IPv4Address(address), int(port)


def shown_peer(peer):
    """Address and port as in a configuration."""
    return f"{peer[0]}:{peer[1]}"


def configuration_of(text, path):
    """The configuration of a text; a text in another form is refused."""
    try:
        return Configuration(text)
    except (ValueError, KeyError, TypeError, AttributeError, RecursionError):
        what = "is no configuration that is accepted: `forwarder check` says why"
        raise Unreadable(f"{shown(str(path))}: {what}") from None

"""The configuration of the forwarder, as far as an explanation needs it. The program says whether it is right."""
import subprocess
import tomllib
from typing import NamedTuple

from .capture import Unreadable
from .messages import from_text, parents

DEFAULTS = {
    "questions": 1024, "inquiries": 256, "cache": 4096, "tries": 4, "ask_ms": 1500, "deadline_ms": 8000, "stale_s": 0,
}  # fmt: skip
MOST_FOUND = 20_000  # names whose route is remembered


class Route(NamedTuple):
    """A suffix with its servers, none if it denies its names."""

    suffix: bytes
    shown: str
    servers: tuple
    denies: bool


class Configuration:
    """The content of the file; `text` is all of it."""

    def __init__(self, text):
        self.text, table = text, tomllib.loads(text)
        self.listen = peer(table.get("listen", "127.0.0.1:53"))
        self.limits = {**DEFAULTS, **table.get("limits", {})}
        self.by_suffix = {}
        for each in table["route"]:
            suffix, servers = from_text(each["suffix"]), tuple(map(peer, each.get("servers", ())))
            self.by_suffix[suffix] = Route(suffix, each["suffix"], servers, each.get("deny", False))
        self.servers = {server for route in self.by_suffix.values() for server in route.servers}
        self._found = {}

    def route_of(self, key):
        try:
            return self._found[key]
        except KeyError:
            if len(self._found) > MOST_FOUND:
                self._found.clear()
            found = next(filter(None, map(self.by_suffix.get, parents(key))), None)
            self._found[key] = found
            return found


def peer(text):
    address, _, port = text.partition(":")
    return bytes(map(int, address.split("."))), int(port)


def read(path, program):
    try:
        checked = subprocess.run([program, "check", path], capture_output=True)
    except OSError as fault:
        raise Unreadable(f"the program can't be run: {fault.strerror}", program) from None
    if checked.returncode:
        said = " ".join((checked.stdout.strip() or checked.stderr).decode("utf-8", "replace").split())
        raise Unreadable(f"is refused: {said}", path)
    with open(path, encoding="utf-8-sig") as file:
        return Configuration(file.read())

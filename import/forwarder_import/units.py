"""The units of the service: the bound of memory, and networks."""
import glob
import ipaddress
import os
import re

from .files import octets_of

FOLDER = "/etc/systemd/system"
MEMORY = "512M"  # `MemoryMax` of the packaged unit
SIZES = {"": 1, "K": 2**10, "M": 2**20, "G": 2**30, "T": 2**40}


class Unit:
    """The lines of drop-ins to the unit of a configuration; none without a path."""

    def __init__(self, path="", folder=FOLDER):
        name = os.path.basename(path).removesuffix(".toml")
        unit = "forwarder" if name == "forwarder" else f"forwarder@{name}"
        self.memory, self.networks = MEMORY, []
        if not path:
            return
        pattern = os.path.join(glob.escape(os.path.join(folder, f"{unit}.service.d")), "*.conf")
        for drop_in in sorted(glob.glob(pattern)):
            self.take(octets_of(drop_in).decode("utf-8", "replace"), drop_in)

    def take(self, text, path):
        self.memory = [self.memory, *re.findall(r"(?m)^\s*MemoryMax\s*=\s*(\S+)", text)][-1]
        for word in re.findall(r"[0-9.]+/[0-9]+", text):
            if is_of_others(word):
                self.networks.append((word, path))

    def octets(self):
        """The most memory, in octets; none without a bound."""
        found = re.fullmatch(r"([0-9]+)([KMGT]?)", self.memory)
        return int(found[1]) * SIZES[found[2]] if found else None


def is_of_others(word):
    """Whether a word is a network of further machines."""
    try:
        return not ipaddress.IPv4Network(word, strict=False).is_loopback
    except ValueError:
        return False

"""Zones denied by real programs without a line."""
import re
import subprocess

from running import programs
from running.foreign import text
from running.trying import NotHere, until

PORT = 23053


def started(folder, name, files, *words):
    """A program with this configuration."""
    if programs.missing(name):
        raise NotHere(f"{name} missing")
    values = {"folder": folder, "address": "127.0.0.1", "port": PORT, "more": ""}
    (folder / "conf").write_text(text(*files).format(**values))
    words = [programs.path(name), *words, "-c", folder / "conf"]
    return programs.Program(words, log=folder / "log")


def of_unbound(folder):
    """The local zones of an unbound."""
    with started(folder, "unbound", ["unbound", "unbound_controlled"], "-d") as process:
        control = ["unbound-control", "-s", f"{folder}/control", "-c", f"{folder}/conf"]

        def listed():
            ran = subprocess.run([*control, "list_local_zones"], capture_output=True, text=True)
            return not ran.returncode and ran.stdout

        process.wait_until(listed)
        return [line.split()[0].removesuffix(".") for line in listed().splitlines()]


def of_named(folder):
    """The empty zones of a named, from the log of its start."""
    with started(folder, "named", ["named"], "-g"):
        until(lambda: " running\n" in (folder / "log").read_text(), 20, "named does not run")
        log = (folder / "log").read_text()
    return [zone.lower()
            for zone in re.findall(r"automatic empty zone: (?:view \S+: )?(\S+)", log)]

"""The command `forwarder-import`: arguments, output and status."""
import argparse
import os
import sys

from .dnsmasq import files_in
from .files import Files, Line, Refused, Unreadable, shown
from .found import Found
from .kinds import READERS, kind_of
from .settling import settle
from .written import Writer

ALL, LEFT_OUT, UNREADABLE = 0, 1, 2
OF_DPKG = (".dpkg-dist", ".dpkg-old", ".dpkg-new")  # endings ignored by Debian's dnsmasq


def arguments(words):
    parser = argparse.ArgumentParser(
        prog="forwarder-import",
        description=(
            "Print a forwarder.toml that does what the configuration of another forwarder says:"
            " dnsmasq, unbound, BIND, systemd-resolved, or a resolv.conf. Each key has the line"
            " that it is from. Lines that have no counterpart follow as comments, with what to do,"
            " and are named on standard error."),
        epilog=(
            "Status: 0 if all is carried, 1 if something is left out, 2 if something can't be read."
            " See forwarder-import(1)."))
    parser.add_argument(
        "files", metavar="FILE", nargs="+",
        help=("a configuration; files that it includes are read, too. The folder dnsmasq.d is its"
              " files"))
    parser.add_argument("--of", choices=READERS,
                        help="whose the files are (default: by name and text)")
    parser.add_argument("--root", metavar="FOLDER", default="",
                        help="where absolute paths of includes are looked up (default: /)")
    return parser.parse_args(words)


def run(options):
    """Reads, decides and prints. Returns the status."""
    paths = [path for written in options.files for path in files_of(written, options.of)]
    if not paths:
        raise Unreadable(f"{shown(options.files[0])}: has no file")
    files, found, readers = Files(options.root), Found(Line(paths[0], 0)), {}
    for path in paths:
        kind = options.of or kind_of(path)
        if kind not in readers:
            readers[kind] = READERS[kind](files, found)
        try:
            readers[kind].read(path)
        except Refused as refused:
            raise Unreadable(f"{path}: {refused.what}") from None
    for reader in readers.values():
        reader.end(readers)
    listen, routes = settle(found)
    writer = Writer(found, files)
    sys.stdout.write(writer.text(listen, routes))
    sys.stdout.flush()
    for note in writer.notes():
        print(f"forwarder-import: {note}", file=sys.stderr)
    return LEFT_OUT if found.left else ALL


def files_of(path, kind):
    """The file itself, or the files of a folder of dnsmasq's."""
    if not os.path.isdir(path) or (kind or kind_of(path)) != "dnsmasq":
        return [path]
    try:
        return files_in(path, OF_DPKG)
    except OSError as fault:
        raise Unreadable(f"{shown(path)}: {fault.strerror}") from None


def ended(name, run, options):
    """Runs a command. Returns the status; a line on standard error says what can't be read."""
    sys.stdout.reconfigure(encoding="utf-8")
    try:
        return run(options)
    except Unreadable as fault:
        print(f"{name}: {fault}", file=sys.stderr)
        return UNREADABLE
    except BrokenPipeError:
        sys.stderr.close()
        return ALL


def main(words):
    return ended("forwarder-import", run, arguments(words))

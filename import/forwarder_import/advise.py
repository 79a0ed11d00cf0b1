"""The command `forwarder-advise`: arguments, output and status."""
import argparse

from .advice import advised
from .command import ended
from .configuration import configuration_of
from .files import Unreadable, octets_of, shown
from .units import FOLDER, Unit

FINE, ADVISED = 0, 1


def arguments(words):
    parser = argparse.ArgumentParser(
        prog="forwarder-advise", description=(
            "Say what `forwarder check` accepts in a configuration but is unwise: a line each, "
            "with what to write instead."),
        epilog=(
            "Status: 0 without advice, 1 with advice, 2 if the file is not accepted or can't be "
            "read. See forwarder-advise(1)."))
    parser.add_argument("file", metavar="FILE", help="a forwarder.toml")
    parser.add_argument("--ask", action="store_true",
                        help="try each server by UDP and TCP, and say what came")
    parser.add_argument("--units", metavar="FOLDER", default=FOLDER,
                        help="where the drop-ins of the units are (default: %(default)s)")
    return parser.parse_args(words)


def lines_of(options):
    """The lines to print, and whether all is well."""
    text = octets_of(options.file).decode("utf-8-sig", "backslashreplace")
    configuration = configuration_of(text, options.file)
    lines = advised(configuration, Unit(options.file, options.units))
    is_fine = not lines
    if options.ask:
        try:
            from .asking import asked
        except ImportError:
            raise Unreadable("--ask needs the package python3-dnspython") from None
        for line, is_well in asked(configuration):
            lines.append(line)
            is_fine = is_fine and is_well
    return lines, is_fine


def run(options):
    """Prints the lines. Returns the status."""
    lines, is_fine = lines_of(options)
    for line in lines:
        print(f"{shown(options.file)}: {line}")
    return FINE if is_fine else ADVISED


def main(words):
    return ended("forwarder-advise", run, arguments(words))

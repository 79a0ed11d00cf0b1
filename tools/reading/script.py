"""Scripts of events, and what they print: a configuration, a line `---`, and a line for each event.

Statuses are 0, 2 for a refused configuration, 3 for a refused line, 5 for too long an input.
"""
import re

from .configuration import Refused, is_peer, read_configuration
from .step import Forwarder

MOST_LINES, MOST_OCTETS, LAST_NUMBER = 8191, 16_777_216, 2**64 - 1
NUMBER, PORT, OCTETS = r"([0-9]{1,20})", r"([0-9]{1,5})", r"(-|(?:[0-9A-Fa-f]{2})+)"
FORMS = {  # What follows the moment and the space after it.
    ("client", "udp"): re.compile(rf"client udp ([^ ]+) {OCTETS}"),
    ("client", "tcp"): re.compile(rf"client tcp {NUMBER} {OCTETS}"),
    ("reply", "udp"): re.compile(rf"reply udp {PORT} ([^ ]+) {OCTETS}"),
    ("reply", "tcp"): re.compile(rf"reply tcp {NUMBER} ([^ ]+) {OCTETS}"),
    ("failed", "udp"): re.compile(rf"failed udp {PORT}"),
    ("failed", "tcp"): re.compile(rf"failed tcp {NUMBER}"),
    ("tick", None): re.compile("tick"),
    ("restart", None): re.compile("restart"),
}


class BadLine(Exception):
    """A line of a script is none of the forms."""


def number(text, last=LAST_NUMBER):
    """A decimal number, zeros in front allowed, up to `last`."""
    if int(text) > last:
        raise BadLine
    return int(text)


def peer(text):
    """A peer, as in a configuration."""
    if not is_peer(text):
        raise BadLine
    return text


def octets_of(text):
    """Hexadecimal octets; a hyphen for none."""
    return b"" if text == "-" else bytes.fromhex(text)


def event_of(line):
    """The moment and the event of a line: its kind, client or path, peer, octets, if any."""
    moment, _, rest = line.partition(" ")
    if not re.fullmatch(NUMBER, moment):
        raise BadLine
    for (event, transport), form in FORMS.items():
        found = form.fullmatch(rest)
        if found:
            return number(moment), fields(event, transport, *found.groups())
    raise BadLine


def fields(event, transport, *texts):
    """An event's fields as values."""
    if event in ("tick", "restart"):
        return (event,)
    end, *more = texts
    if event == "client":
        end = peer(end) if transport == "udp" else number(end)
        return event, (transport, end), octets_of(more[0])
    path = transport, number(end, 65_535 if transport == "udp" else LAST_NUMBER)
    return (event, path, peer(more[0]), octets_of(more[1])) if more else (event, path)


def words_of(line):
    """The eight words of the event line with this number, from 1."""
    return [(8 * line + at) * 65_537 for at in range(8)]


def printed(line, action):
    """An action as it is printed: its words after the number of the event line."""
    return " ".join([str(line), *(each.hex() if isinstance(each, bytes) else str(each)
                                  for each in action)])


def lines_of(text):
    """The lines of a text, each ended by a line feed but perhaps the last one."""
    lines = text.split("\n")
    return lines[:-1] if lines[-1] == "" else lines


def replay(octets):
    """Runs a script: the lines that it prints, the line on standard error, the status."""
    if len(octets) > MOST_OCTETS:
        return [], "device", 5
    lines = lines_of(octets.decode("latin-1"))
    if "---" not in lines:
        return [], "line 0", 3
    top = lines.index("---")
    try:
        text = "".join(line + "\n" for line in lines[:top])
        forwarder = Forwarder(read_configuration(text.encode("latin-1")))
    except Refused as fault:
        return [], f"fault {fault}", 2
    out = []
    for at, line in enumerate(lines[top + 1:], 1):
        try:
            if at > MOST_LINES:
                raise BadLine
            moment, event = event_of(line)
        except BadLine:
            return out, f"line {at}", 3
        out += [printed(at, action) for action in forwarder.step(moment, words_of(at), *event)]
    return out, "", 0


def check(octets):
    """Judges a configuration: the line printed if it is accepted, standard error, the status."""
    if len(octets) > MOST_OCTETS:
        return [], "device", 5
    try:
        return [f"ok {len(read_configuration(octets).routes)}"], "", 0
    except Refused as fault:
        return [], f"fault {fault}", 2

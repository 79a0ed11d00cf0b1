"""The options of the command, and the questions that they choose."""
import argparse
import datetime
import ipaddress
import re

from . import messages
from .capture import Unreadable
from .times import MINUTE, SECOND
from .wording import address_text, shown

FORMS = ("%H:%M:%S.%f", "%H:%M:%S", "%H:%M")  # of times; a date may come before
ABOUT = "Say what became of each question to the DNS forwarder in a capture, and judge each answer by the claim."
STATUS = "Status: 0 if no answer is different, 1 if one is, 2 if something can't be read. See forwarder-explain(1)."
ARGUMENTS = (  # name with any other goal, value, help
    ("configuration", "CONFIG", "the configuration that the forwarder had"),
    ("capture", "CAPTURE", "a file of tcpdump -w, in pcap or pcapng; - for standard input; or a folder of such files"),
    ("--at", "TIME", "questions of this minute, 14:03, or of this second, 14:03:02"),
    ("--from since", "TIME", "questions from then on: 14:03, 14:03:02.5, 2026-11-28T14:03, or seconds since 1970"),
    ("--to until", "TIME", "questions before this time"),
    ("--client", "ADDRESS", "questions of this client alone: 10.0.0.7 or 10.0.0.7:40000"),
    ("--name", "NAME", "questions for this name and those below it alone"),
    ("--failures", None, "failed questions alone, and answers that differ"),
    ("--summary", None, "counts by reason, server and client, and no line for each question"),
    ("--follow", None, "read on as the capture grows: the line of each question once it is known"),
    ("--html", "FILE", "write a page of counts and lines, in place of a line for each question"),
    ("--script", "FILE", "write the script of the questions, for forwarder replay"),
    ("--json", None, "one JSON object a line, for programs"),
)


def arguments(words):
    parser = argparse.ArgumentParser(prog="forwarder-explain", description=ABOUT, epilog=STATUS)
    for names, value, text in ARGUMENTS:
        name, _, goal = names.partition(" ")
        more = {"metavar": value} if value else {"action": "store_true"}
        parser.add_argument(name, help=text, **more, **({"dest": goal} if goal else {}))
    restarted = "the service was restarted at this time, which the capture may not show; may be repeated"
    parser.add_argument("--restarted", metavar="TIME", action="append", default=[], help=restarted)
    program = "the forwarder's program (default: forwarder)"
    parser.add_argument("--program", metavar="PATH", default="forwarder", help=program)
    options = parser.parse_args(words)
    if options.client and not is_client(options.client):
        parser.error(f"--client: {options.client} is no IPv4 address; 10.0.0.7 and 10.0.0.7:40000 are")
    for name in ("at", "until", "html", "script") if options.follow else ():
        if getattr(options, name):
            parser.error(f"--{'to' if name == 'until' else name} is not for --follow")
    return options


def is_client(text):
    address, colon, port = text.partition(":")
    try:
        ipaddress.IPv4Address(address)
    except ValueError:
        return False
    return not colon or port.isascii() and port.isdigit() and int(port) < 65536


def span_of_text(text, first):
    """The bounds of a time of the command line, in microseconds since 1970: it may be written to the minute, to the
    second, or more exactly. Without a date it is of the day of the capture's beginning."""
    if re.fullmatch(r"\d{9,}(\.\d+)?", text):
        since = round(float(text) * SECOND)
        return since, since + (0 if "." in text else SECOND)
    day = datetime.datetime.fromtimestamp(first / SECOND).strftime("%Y-%m-%dT")
    for form in FORMS:
        try:
            found = datetime.datetime.strptime(text if "T" in text else day + text, "%Y-%m-%dT" + form)
        except ValueError:
            continue
        since = round(found.timestamp() * SECOND)
        return since, since + (0 if "%f" in form else SECOND if "%S" in form else MINUTE)
    raise Unreadable("is no time; 14:03, 14:03:02.5 and 2026-11-28T14:03 are", text)


def span_of(options, first):
    since = span_of_text(options.since, first)[0] if options.since else None
    until = span_of_text(options.until, first)[0] if options.until else None
    if options.at:
        at, end = span_of_text(options.at, first)
        end = max(end, at + SECOND)
        since = at if since is None else max(since, at)
        until = end if until is None else min(until, end)
    return since, until


def chooser(options, first):
    """A function: whether the options choose a question."""
    since, until = span_of(options, first)
    suffix = messages.from_text(options.name) if options.name else None
    if options.name and suffix is None:
        raise Unreadable("is no name", options.name)

    def is_chosen(question):
        if since is not None and question.moment < since or until is not None and question.moment >= until:
            return False
        if options.client and options.client not in (address_text(question.peer[0]), shown(question.peer)):
            return False
        return suffix is None or question.asked is not None and messages.is_under(question.asked.key, suffix)

    return is_chosen

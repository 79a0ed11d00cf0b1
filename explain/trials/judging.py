"""An explainer's report of a capture, next to the truth."""
import collections
import dataclasses
import json
import os
import subprocess
import tempfile
import threading
import time

import dns.exception
import dns.message

LIMIT = 900  # seconds for one run of the explainer
SIGN = 10  # seconds after a restart in which the service shows a sign of life
MACHINE = "10.0.0.5"  # the begin of both of its addresses
ODD = "10.0.0.1:"  # the sender of messages that are no questions
OFF = ".off.example"  # of a server that is off: no packet shows the cause, so open is right


@dataclasses.dataclass
class Told:
    """The explainer's report, and its costs."""

    status: int
    lines: list
    summary: dict
    errors: str
    seconds: float
    octets: int

    def of(self, verdict):
        return [line for line in self.lines if line["verdict"] == verdict]

    @property
    def last_error(self):
        return f"status {self.status}: {(self.errors.strip().splitlines() or [''])[-1]}"


def explained(explainer, configuration, capture, options=()):
    """Runs the explainer for its objects; seconds are of the clock or of the processor, if less.

    The memory is the largest of a single process."""
    words = [*explainer, "--json", *options, str(configuration), str(capture)]
    with tempfile.TemporaryFile("w+") as output, tempfile.TemporaryFile("w+") as errors:
        started = time.monotonic()
        process = subprocess.Popen(words, stdout=output, stderr=errors)
        end = threading.Timer(LIMIT, process.kill)
        end.start()
        _, status, usage = os.wait4(process.pid, 0)
        end.cancel()
        seconds = time.monotonic() - started
        process.returncode = os.waitstatus_to_exitcode(status)
        output.seek(0)
        errors.seek(0)
        objects = [json.loads(line) for line in output if line.startswith("{")]
        summary = objects.pop()["summary"] if objects and "summary" in objects[-1] else {}
        seconds = min(seconds, usage.ru_utime + usage.ru_stime)
        memory = usage.ru_maxrss * 1024
        return Told(process.returncode, objects, summary, errors.read(), seconds, memory)


def pairs(questions, lines):
    """Each question with its line, or None, in their orders; and the lines that are left."""
    left = collections.defaultdict(list)
    for line in lines:
        name = line["name"].lower().rstrip(".")
        left[line["client"], line["transport"], name, line["type"]].append(line)
    paired = []
    for row in questions:
        held = left[row[0], row[1], row[3].lower(), row[4]]
        paired.append((row, held.pop(0) if held else None))
    return paired, [line for held in left.values() for line in held]


def short(line):
    return " ".join(line[key] for key in ("client", "name", "type", "code", "words", "why"))


def wrong_verdicts(truth, told):
    for line in told.of("different"):
        yield f"different wrongly: {short(line)}"
    for line in told.of("open") if truth["whole"] else []:
        if line["code"] != "-" and not line["name"].lower().endswith(OFF):
            yield f"open without a cause: {short(line)}"


def wrong_lines(truth, told):
    """Missing lines, lines that nobody asked for, and lines with a wrong result code."""
    paired, left = pairs(truth["questions"], told.lines)
    for row, line in paired:
        if truth["whole"] and line is None:
            yield f"no line: {row}"
        elif truth["whole"] and row[5] and line["code"] != row[5]:
            yield f"another result code: {row}, told {line['code']}"
    for line in left:
        if line["name"] != "-" and not line["client"].startswith(ODD):
            yield f"not asked: {short(line)}"


def queries(captured):
    """The names and servers of all queries that left the machine, by UDP and over TCP."""
    asked = set()
    for packet in captured:
        if packet.has_ports and packet.ip.data.dport == 53 and packet.ends[0].startswith(MACHINE):
            octets = packet.message if packet.is_datagram else packet.message[2:]
            try:
                found = dns.message.from_wire(octets, ignore_trailing=True).question
            except dns.exception.DNSException:
                continue
            asked |= {(str(question.name).lower().rstrip("."), packet.ends[1])
                      for question in found}
    return asked


def wrong_tries(captured, told):
    """Servers reported as asked, without a packet with the name."""
    asked = queries(captured)
    for line in told.lines:
        for tried in line["tries"]:
            if (tried["name"].lower().rstrip("."), tried["server"]) not in asked:
                yield f"a try without a packet: {tried} of {short(line)}"


def wrong_counts(told):
    """Counts of the summary that differ from the lines."""
    counts = collections.Counter(line["verdict"] for line in told.lines)
    counts["questions"] = len(told.lines)
    counts["answers"] = sum(line["code"] != "-" for line in told.lines)
    for key in ("questions", "answers", "right", "open", "different"):
        if told.summary.get(key) != counts[key]:
            yield f"the summary has {told.summary.get(key)} {key}, the lines {counts[key]}"


def wrong_times(truth, told):
    """Invented clock steps and restarts, and missing steps."""
    steps = [seconds for seconds, _ in told.summary.get("clock_steps", [])]
    for seconds in truth["steps"]:
        near = [step for step in steps if abs(step - seconds) <= 2]
        if near:
            steps.remove(near[0])
        elif abs(seconds) > 2:
            yield f"no clock step of {seconds} s is told"
    for step in steps:
        yield f"a clock step of {step} s that was not"
    known = truth["restarts"] + [float(word) for word in truth["options"] if word[0].isdigit()]
    for when in told.summary.get("begun_anew_by", []):
        if not any(-2 < when - restart < SIGN for restart in known):
            yield f"a restart at {when} that was not"


def complaints(truth, told, captured):
    """All faults in the explainer's report of a right service."""
    allowed = (0, 2) if not told.lines and not truth["whole"] else (0,)
    if told.status not in allowed or "Traceback" in told.errors:
        yield told.last_error
    if told.summary:
        yield from wrong_verdicts(truth, told)
        yield from wrong_lines(truth, told)
        yield from wrong_tries(captured, told)
        yield from wrong_counts(told)
        yield from wrong_times(truth, told)

"""The command `forwarder-explain`: its output, and its status."""
import gc
import os
import sys

from . import configuration, following
from .capture import Capture, Unreadable, counts_losses
from .clock import InOrder
from .files import captures_in, first_moment, opened
from .options import arguments, span_of
from .packets import Decoder
from .running import Run
from .times import FILE_OVERLAP
from .wording import moment_text, shown

DIFFERENT, UNREADABLE = 1, 2
AT_ONCE = 50  # packets that are read before they are explained


def note(path, text):
    print(f"forwarder-explain: {path}: {text}", file=sys.stderr)


class Packets:
    """The content of the packets of captures, in order. `notes` has a line for each remark."""

    def __init__(self, files):
        self.files, self.decoder, self.order, self.said, self.is_lossy = files, Decoder(), InOrder(), [], False

    def __iter__(self):
        read, order = self.decoder.read, self.order
        for file in self.files:
            self.is_lossy |= counts_losses(file)
            capture = Capture(file)
            for number, packet in enumerate(capture.packets()):
                found = read(*packet)
                if found is not None:
                    order.put(found)
                if number % AT_ONCE == 0:
                    yield from order.due()
            self.said += capture.notes
        yield from order.due(True)

    def notes(self):
        return [*self.said, *self.decoder.notes(), *self.order.notes]


def run(options, settings, files):
    gc.disable()  # there are few cycles, and searches for them take long
    packets, found = Packets(files), None
    steps = packets.order.steps

    def say(text):
        note(options.capture, text)

    for packet in packets:
        if found is None:
            found = Run(options, settings, packet.moment, packets.is_lossy, say)
            take = found.explaining.take
        if steps:
            found.explaining.clock.loosen(*steps.pop(0))
        take(packet)
    for text in packets.notes():
        say(text)
    sides = found and found.explaining.traffic.sides
    if sides and (sides.questions or sides.queries):
        found.explaining.end()
    for text in found.notes() if found else ():
        say(text)
    if not sides or not sides.questions and not sides.queries:
        raise Unreadable(f"has no question to {shown(settings.listen)}, where the configuration listens")
    if sides.questions and not found.has_chosen:
        first, last = map(moment_text, found.span)
        say(f"no question is chosen; the capture has those from {first} to {last}")
    return DIFFERENT if found.finish() else 0


def opened_in_turn(options):
    until = None
    if os.path.isdir(options.capture):
        until = span_of(options, first_moment(captures_in(options.capture, None)[0]))[1]
    for path in captures_in(options.capture, until and until + FILE_OVERLAP):
        with opened(path) as file:
            yield file


def main(words):
    options = arguments(words)

    def work():
        settings = configuration.read(options.configuration, options.program)
        if options.follow:
            return DIFFERENT if following.follow(options, settings, lambda text: note(options.capture, text)) else 0
        return run(options, settings, opened_in_turn(options))

    return guarded(options, work)


def guarded(options, work):
    try:
        return work()
    except Unreadable as fault:
        text, path = fault.args[0], fault.args[1] if len(fault.args) > 1 else options.capture
    except BrokenPipeError:
        sys.stderr.close()
        return 0
    except OSError as fault:  # as of a full disk
        text, path = fault.strerror, fault.filename or options.capture
    note(path, text)
    return UNREADABLE

"""Explains a capture as it grows: each question once its fate is known (`--follow`)."""
import signal
import sys
import time

from .capture import Capture, Unreadable
from .clock import InOrder
from .files import Pipe, Ring, opened
from .options import span_of
from .packets import Decoder
from .running import Run
from .times import BACK, BEHIND, LOOK, PAUSE, SECOND, UNHEARD
from .wording import counted, shown


class Stopped(Exception):
    """A signal asks for the end of the run."""


class Ended(BaseException):  # which nothing else may catch
    """A second signal asks for the end at once."""


class Behind:
    """Reports the delay of a run: by how much more time has passed than at best, by the times of the packets."""

    def __init__(self, note):
        self.note, self.least, self.said = note, float("inf"), 0

    def look(self, passed):
        """Takes the microseconds that have passed, from any beginning, without those of the packets."""
        self.least = min(self.least, passed)
        behind = passed - self.least
        if behind >= max(BEHIND, 2 * self.said):
            self.said = behind
            self.note(f"{behind / SECOND:,.0f} s behind what comes")
        if self.said and behind < BEHIND / 2:
            self.said = 0
            self.note("no longer behind what comes")


class Follower:
    """Follows a capture: takes packets as they come, and has them explained in order. `stops` counts signals."""

    def __init__(self, options, settings, note):
        self.options, self.settings, self.note = options, settings, note
        self.decoder, self.order = Decoder(), InOrder()
        self.run, self.behind, self.back, self.stops = None, Behind(note), 0, 0
        self.is_last = self.is_told = False
        self.began = self.came = self.looked = now()

    def stop(self, *_):
        self.stops += 1
        if self.stops > 1:
            raise Ended

    # What comes.
    def take(self, packet):
        if packet[0] < self.back:
            return
        self.came = now()
        found = self.decoder.read(*packet)
        if found is not None:
            self.order.put(found)
            self.go_on()
        if self.came - self.looked > PAUSE:
            self.looked = self.came
            self.behind.look(self.came - packet[0])

    def go_on(self, is_end=False):
        for packet in self.order.due(is_end):
            if self.run is None:
                self.run = Run(self.options, self.settings, packet.moment, False, self.note, True)
            explaining = self.run.explaining
            if self.order.steps:
                explaining.clock.loosen(*self.order.steps.pop(0))
            explaining.take(packet)
            if explaining.clock.notes:
                self.note(explaining.clock.notes.pop(0))
        if self.run is not None:
            self.run.show_restarts()
        while self.order.notes:
            self.note(self.order.notes.pop(0))

    def reading(self):
        """Called before each read. After a signal there is one more, of the octets from before the signal."""
        if self.stops:
            if self.is_last:
                raise Stopped
            self.is_last = True

    def idle(self):
        if self.stops:
            raise Stopped
        quiet = now() - self.came
        if quiet > 2 * LOOK:
            self.go_on(True)
            if self.run is not None:
                self.run.explaining.pass_time(self.run.explaining.now + quiet, True)
                self.run.show_restarts()
        if not self.is_told and self.run is not None and now() - self.began >= UNHEARD:
            self.is_told = True
            if not self.has_question():
                self.note(f"has no question to {shown(self.settings.listen)} yet, where the configuration listens")

    def has_question(self):
        return self.run is not None and bool(self.run.explaining.traffic.sides.questions)

    # The end.
    def end(self):
        self.go_on(True)
        if not self.has_question():
            raise Unreadable(f"has no question to {shown(self.settings.listen)}, where the configuration listens")
        self.run.explaining.end()
        for text in [*self.decoder.notes(), *self.run.notes()]:
            self.note(text)
        return self.run.finish()

    def end_at_once(self):
        explaining = self.run.explaining if self.run else None
        count = explaining.traffic.clients.count + len(explaining.held) if explaining else 0
        self.note(f"a second signal ended the run: left out {counted(count, 'question')}")
        return self.run.finish() if self.run else False


def now():
    """The clock of this machine that is never set, in microseconds."""
    return time.monotonic_ns() // 1000


def follow(options, settings, note):
    """Follows a capture until its end or a signal; gives whether an answer is different."""
    if hasattr(sys.stdout, "reconfigure"):
        sys.stdout.reconfigure(line_buffering=True)
    follower = Follower(options, settings, note)
    handlers = {number: signal.signal(number, follower.stop) for number in (signal.SIGINT, signal.SIGTERM)}
    try:
        read(options, follower)
        return follower.end()
    except Ended:
        return follower.end_at_once()
    finally:
        for number, handler in handlers.items():
            signal.signal(number, handler)


def read(options, follower):
    """Gives a follower all packets, until the end of the capture or a signal."""
    try:
        for file in files_of(options, follower):
            capture = Capture(file)
            for packet in capture.packets():
                follower.take(packet)
            if not getattr(file, "was_rewritten", False):
                for text in capture.notes:
                    follower.note(text)
    except Stopped:
        pass


def files_of(options, follower):
    """The captures, each as a file that grows. Of files only questions from now on are shown, or from a time."""
    if options.capture == "-":
        return [Pipe(opened("-"), follower)]
    ring = Ring(options.capture, follower, follower.note)
    options.since = options.since or f"{time.time():.6f}"
    first = ring.queue[0][0] if ring.queue else time.time_ns() // 1000
    follower.back = ring.since = span_of(options, first)[0] - BACK
    return ring.captures()

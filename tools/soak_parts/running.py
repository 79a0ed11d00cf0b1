"""The run: servers that change and fail, the forwarder and its restarts, captures, clients."""
import dataclasses
import heapq
import itertools
import multiprocessing
import pathlib
import tempfile
import time

from running.capture import Capture
from soak_parts import asking, failing, sampling
from soak_parts.clock import DAY, HOUR, Clock, shown
from soak_parts.explaining import Ending
from soak_parts.failing import KILLED
from soak_parts.forwarder import Lives
from soak_parts.office import HARNESS, SERVED
from soak_parts.servers import Served
from soak_parts.zones import History

WEEK = 7 * DAY
RESTARTS = 2 * DAY + 10.2 * HOUR  # of a week: on Wednesday, in the morning
LOOK = 0.002  # seconds of the system after which the servers are looked at again
MEMORY = pathlib.Path("/dev/shm")  # where servers don't wait for a disk
SOON = 1  # seconds of the office after which something is tried again
WARM = 1.0  # seconds of the system before the office's clock begins


class Pending:
    """A change for some servers, and the version of the set that ends with the last server."""

    __slots__ = ("change", "ends", "left")

    def __init__(self, change, ends, left):
        self.change, self.ends, self.left = change, ends, set(left)


@dataclasses.dataclass
class Found:
    """The findings by which answers are judged, and the samples: failures of servers by address,
    restarts with begin and end, in seconds of the office; and the greatest lateness."""

    clock: Clock
    history: History
    failed: dict
    restarts: list
    lives: list
    late: float


class Run:
    """The whole run. `say` prints its events."""

    def __init__(self, office, words, folder, say):
        self.office, self.words, self.folder, self.say = office, words, folder, say
        self.history, self.content = History(), {}
        for zone, sets in office.zones.items():
            self.content[zone] = {(each.owner, each.kind): each for each in sets}
            for each in sets:
                self.history.begin(each.owner, each.kind, each)
        self.clock = Clock(words.speed)
        self.memory = tempfile.TemporaryDirectory(dir=MEMORY if MEMORY.exists() else None)
        folders = pathlib.Path(self.memory.name)
        self.served = {each: Served(folders / each, each, self.now, self.text_of)
                       for each in SERVED}
        self.service = Lives(words.program, folder, words.speed)
        self.restarts, self.explanations, self.capture = [], [], None
        self.plan, self.numbers, self.late = [], itertools.count(), 0.0

    def now(self):
        return self.clock.now()

    def text_of(self, zone):
        """The master file of a zone for now; the SOA record comes first."""
        return "".join(line for each in self.content[zone].values() for line in each.lines())

    def at(self, seconds, work, *given):
        """Plans some work for a time of the office."""
        heapq.heappush(self.plan, (seconds, next(self.numbers), work, given))

    def go(self):
        """Runs all days; returns whether the end was reached."""
        try:
            for each in self.served.values():
                each.start()
            self.begin_life()
            return self.go_on()
        finally:
            self.service.stop()
            for each in self.served.values():
                each.stop()
            self.memory.cleanup()

    def go_on(self):
        """Runs the days, with the clients in a process of their own."""
        self.clock.began = time.time_ns() + int(WARM * 1e9)
        ends = self.words.days * DAY
        self.at(0, self.begin_day, 0)
        for number in range(self.words.days // 7 + 1):
            if number * WEEK + RESTARTS < ends:
                self.at(number * WEEK + RESTARTS, self.restart)
        asked = self.clock, self.office, self.words.visits, self.words.days, self.file_of
        context = multiprocessing.get_context("fork")
        clients = context.Process(target=asking.ask_all, args=asked)
        clients.start()
        try:
            self.work_until(ends + asking.OVER)
            return True
        except KeyboardInterrupt:
            self.say(f"interrupted on {shown(self.now())}")
            return False
        finally:
            clients.terminate()
            clients.join()
            if clients.exitcode:
                raise AssertionError(f"the clients ended with {clients.exitcode}")
            self.service.stop()
            self.end_life(self.capture)

    def file_of(self, day):
        return self.folder / f"asked{day}"

    def work_until(self, ends):
        """Does all planned work in time, and looks after the servers."""
        while (left := self.clock.left(ends)) > 0:
            self.tend()
            if self.plan and self.plan[0][0] <= self.now():
                seconds, _, work, given = heapq.heappop(self.plan)
                self.late = max(self.late, self.now() - seconds)
                work(*given)
            else:
                due = self.clock.left(self.plan[0][0]) if self.plan else left
                time.sleep(max(0, min(left, due, LOOK)))

    def begin_day(self, day):
        """Plans a day, and the beginning of the next."""
        if day >= self.words.days:
            return
        self.say(f"{shown(self.now())}: {self.state()}")
        for change in self.office.changes(day):
            self.at(change.at, self.change, change)
        for failure in failing.failures(self.office, day):
            self.at(failure.at, self.fail, failure)
        for hour in range(24):
            self.at(day * DAY + hour * HOUR + sampling.EVERY / 2, self.sample)
        self.at((day + 1) * DAY, self.begin_day, day + 1)

    def state(self):
        for last in self.service.lives[-1].samples[-1:]:
            return f"{sampling.kib(last.memory)}, {last.descriptors} descriptors"
        return "it begins"

    def sample(self):
        self.service.sample(self.now())

    # The servers.

    def change(self, change):
        """A zone changes; its servers take the change by `tend`."""
        held = self.content[change.zone]
        if change.held:
            held[change.owner, change.kind] = change.held
        else:
            held.pop((change.owner, change.kind), None)
        ends = self.history.begin(change.owner, change.kind, change.held, self.now())
        holders = [each for each in self.served.values() if change.zone in each.names]
        pending = Pending(change, ends, holders)
        for each in holders:
            each.waiting.append(pending)

    def tend(self):
        """Has the servers take their changes, and notes each server's return."""
        for each in self.served.values():
            if each.probe:
                each.has_returned()
            for pending in each.take():
                pending.left.discard(each)
                if not pending.left and pending.ends:
                    pending.ends.ended = self.now()

    def fail(self, failure):
        served = self.served[failure.server]
        if served.sent:
            self.at(self.now() + SOON, self.fail, failure)
            return
        served.fail(failure.how)
        self.at(failure.until, served.begin if failure.how == KILLED else served.go_on)

    # The forwarder.

    def begin_life(self):
        """Starts a capture, without the harness's own conversations, and then the forwarder."""
        file = self.folder / f"life{len(self.service.lives)}.raw"
        only = f"(udp or tcp or icmp) and not host {HARNESS}"
        self.capture = Capture(file, ["--time-stamp-precision=nano"], only)
        self.capture.__enter__()
        self.service.start()

    def restart(self):
        """Restarts the forwarder, while clients ask. Each life is captured from before."""
        began, before = self.now(), self.capture
        self.service.stop()
        self.begin_life()
        self.restarts.append((began, self.now()))
        self.say(f"{shown(began)}: a restart took {self.now() - began:.0f} s of the office")
        self.end_life(before)

    def end_life(self, capture):
        """Ends a capture, and starts an explanation, while all else goes on."""
        explanation = Ending(self.words.program, self.service.config, capture, self.clock)
        explanation.start()
        self.explanations.append(explanation)

    def found(self):
        failed = {address: each.failed for address, each in self.served.items()}
        return Found(self.clock, self.history, failed, self.restarts, self.service.lives, self.late)

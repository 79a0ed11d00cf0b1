"""The capture's clock: the steps by which it was set, as the order of packets and all lifetimes show them."""
from collections import deque
from types import SimpleNamespace

from .times import LEAP, LEAST_STEP, LONGEST_STEP, OUT_OF_ORDER
from .wording import moment_text, seconds_text

ENOUGH = 3  # answers with data of one reply whose lifetimes agree on a step
MOST_GAPS = 200  # remembered times without a packet


class InOrder:
    """Packets in the order of their times, with steps back of the clock undone. `notes` has a line for each step,
    `steps` the moment, the size and the first packet's time of each step not yet asked for."""

    def __init__(self):
        self.offset, self.latest, self.notes, self.steps, self.waiting = 0, 0, [], [], deque()

    def put(self, packet):
        moment = packet.moment + self.offset
        if moment < self.latest - LEAP:
            back, at = seconds_text(self.latest - moment), moment_text(packet.moment)
            self.notes.append(f"the clock was set back by {back} or more at {at}: times are moved")
            self.offset += self.latest + 1 - moment
            self.steps.append((self.latest + 1, self.latest - moment, packet.moment))
            moment = self.latest + 1
        if self.offset:
            packet = packet._replace(moment=moment)
        self.waiting.append(packet)
        if moment >= self.latest:
            self.latest = moment
        else:
            self.waiting = deque(sorted(self.waiting, key=lambda each: each.moment))

    def due(self, is_end=False):
        """The packets that no later one of the file comes before."""
        waiting, until = self.waiting, self.latest if is_end else self.latest - OUT_OF_ORDER
        while waiting and waiting[0].moment <= until:
            yield waiting.popleft()
            waiting = self.waiting


class Clock:
    """The known steps of the capture's clock. `ask` is how long a query waits. Later packets are `moved`. At the
    moment of a step later times are moved `by` some, and between `least` and `most` more time has passed than they say;
    `at` is the first packet's time.

    Wrong lifetimes are suspects, with common `bounds`: a step makes all lifetimes wrong by an equal time. `gaps` are
    times without a packet, in which a step forward may hide; `hints` are those in which a late reply was accepted;
    `sure` is the last moment of a right lifetime."""

    def __init__(self, ask):
        self.ask, self.steps, self.notes, self.moved = ask, [], [], 0
        self.suspects, self.bounds, self.gaps, self.last, self.sure = [], None, deque(maxlen=MOST_GAPS), None, 0
        self.hints = []

    def put(self, moment, least, most, by, at):
        self.steps.append(SimpleNamespace(moment=moment, least=least, most=most, by=by, at=at))

    def crossed(self, since, until):
        return [each for each in self.steps if since < each.moment <= until]

    def between(self, since, until):
        """How much more time has passed between two moments than the times say, at least and at most."""
        if not self.steps:
            return 0, 0
        crossed = self.crossed(since, until)
        return sum(each.least for each in crossed), sum(each.most for each in crossed)

    def loosen(self, moment, by, at):
        """The order of packets shows a step back at a moment: how long no packet came there is unknown."""
        self.put(moment + self.moved, -LONGEST_STEP, LONGEST_STEP, by, at)

    def pass_on(self, moment):
        if self.last is not None and moment - self.last >= LEAST_STEP:
            self.gaps.append((moment - self.last, moment))
        self.last = moment

    def hint(self, since, until):
        """A reply came late between two moments, and was accepted: a gap there may be a step forward."""
        self.hints += [each for each in self.gaps if since < each[1] <= until]

    def agree(self, bounds, since, until):
        """Takes the bounds of a right lifetime: they narrow a step, or refute suspects."""
        crossed = self.crossed(since, until) if self.steps else ()
        if len(crossed) == 1:
            step = crossed[0]
            least, most = max(step.least, bounds[0]), min(step.most, bounds[1])
            if least <= most:
                step.least, step.most = least, most
        elif not crossed and bounds[0] <= 0 <= bounds[1]:
            if self.bounds and (bounds[1] < self.bounds[0] or bounds[0] > self.bounds[1]):
                self.suspects, self.bounds = [], None
            if not self.suspects:
                self.sure = until

    def suspect(self, question, reply, bounds):
        """Takes a wrong lifetime. Gives the step that the suspects show, if any: its moment, and its size."""
        if self.bounds:
            common = max(bounds[0], self.bounds[0]), min(bounds[1], self.bounds[1])
            if common[0] > common[1]:
                self.suspects = []
            else:
                bounds = common
        self.suspects.append((question, reply))
        self.bounds = bounds
        fitting = [each for each in self.hints if each[1] > self.sure and bounds[0] <= -each[0] <= bounds[1]]
        if fitting:
            size, moment = fitting[-1]
            return self.step(moment, -size, bounds[0] + size, bounds[1] + size)
        if len({reply for _, reply in self.suspects}) < 2 and len(self.suspects) < ENOUGH:
            return None
        by = (bounds[0] + bounds[1]) // 2
        gap, moment = max((each for each in self.gaps if each[1] > self.sure), default=(0, None))
        if by < 0:
            by = max(by, -gap)
        if not LEAST_STEP <= abs(by) <= LONGEST_STEP or by < bounds[0]:
            return None
        moment = moment or min(question.moment for question, _ in self.suspects)
        return self.step(moment, by, bounds[0] - by, bounds[1] - by)

    def step(self, moment, by, least, most):
        way, size = "back" if by > 0 else "forward", seconds_text(abs(by))
        self.notes.append(f"the clock was set {way} by {size} before {moment_text(moment)}: times are moved")
        self.put(moment + min(by, 0), least, most, by, moment)
        self.suspects, self.bounds, self.hints, self.last = [], None, [], None
        self.gaps.clear()
        return moment, by

    def step_within(self, query, moment):
        """The step forward, if any fits, that makes a reply to a query seem late."""
        fitting = [each for each in self.gaps if query.moment < each[1] <= moment]
        gap, end = max(fitting, default=(0, None))
        waited = moment - query.moment - gap
        if gap < LEAST_STEP or waited >= self.ask:
            return None
        return self.step(end, -gap, 0, self.ask - waited)

"""The clock of the office, which runs at a multiple of the system's."""
import time

HOUR, DAY = 3600, 86_400
SECOND = 1_000_000_000  # nanoseconds


class Clock:
    """Seconds of the office since the beginning, midnight of a Monday. `began` is the system's time
    then, in nanoseconds since 1970."""

    def __init__(self, speed):
        self.speed, self.began = speed, time.time_ns()

    def now(self):
        return self.of(time.time_ns())

    def of(self, moment):
        """The office's time at a moment of the system, in nanoseconds."""
        return (moment - self.began) * self.speed / SECOND

    def at(self, seconds):
        """The system's nanoseconds at a time of the office."""
        return self.began + int(seconds * SECOND / self.speed)

    def left(self, seconds):
        """The system's seconds until a time of the office."""
        return (self.at(seconds) - time.time_ns()) / SECOND


def shown(seconds):
    """A time of the office in words: the day from 1 on, and the hour."""
    day, rest = divmod(int(seconds), DAY)
    return f"day {day + 1}, {rest // HOUR:02}:{rest // 60 % 60:02}:{rest % 60:02}"

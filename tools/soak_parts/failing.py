"""Failures of servers, each with its kind and its end."""
from typing import NamedTuple

from soak_parts.clock import DAY, HOUR
from soak_parts.office import INSIDE, OUTSIDE, SERVED

WAYS = KILLED, FROZEN = "killed", "frozen"


class Failure(NamedTuple):
    """A server ends or is silent from a moment to another, in seconds of the office."""

    at: float
    until: float
    server: str
    how: str


def failures(office, day):
    """The failures of a day: of some servers, and every third day of both servers of a route at
    once. No server fails twice a day, so that each has returned before."""
    chance = office.chance("failures", day)
    left, found = list(SERVED), []
    if day % 3 == 1:
        pair = chance.choice((OUTSIDE, INSIDE))
        at = day * DAY + chance.uniform(9 * HOUR, 15 * HOUR)
        for server in pair:
            until = at + chance.uniform(HOUR / 2, 2 * HOUR)
            found.append(Failure(at, until, server, chance.choice(WAYS)))
            left.remove(server)
    for server in chance.sample(left, 2):
        at = day * DAY + chance.uniform(7 * HOUR, 19 * HOUR)
        until = at + chance.uniform(600, 3 * HOUR)
        found.append(Failure(at, until, server, chance.choice(WAYS)))
    return sorted(found)

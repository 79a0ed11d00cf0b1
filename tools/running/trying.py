"""The outcome of a case, for tools that go on after a failure, and waiting for a condition."""
import time


class NotHere(Exception):
    """A case that can't run on this machine or for this user; why."""


def tried(function, *given):
    """Runs a case, which may return a fault: "passed", "failed" or "not run", and the reason."""
    try:
        fault = function(*given)
        return ("failed" if fault else "passed"), fault
    except NotHere as reason:
        return "not run", f"here: {reason}"
    except Exception as fault:  # of any kind: the case failed
        return "failed", f"{type(fault).__name__}: {fault}"


def named(function):
    return function.__name__.replace("_", " ")


class Late(AssertionError):
    """A condition that did not hold by its deadline."""


def until(condition, seconds, otherwise, pause=0.01):
    """Waits until a condition holds; returns the condition's value.

    After `seconds` raises Late with the text `otherwise`, or with the result of calling it."""
    deadline = time.monotonic() + seconds
    while not (value := condition()):
        if time.monotonic() > deadline:
            raise Late(otherwise() if callable(otherwise) else otherwise)
        time.sleep(pause)
    return value

"""Processes, by their files below /proc (proc(5))."""
import os
import pathlib
import re
import resource

TICKS = os.sysconf("SC_CLK_TCK")


def fields(pid):
    """The fields of /proc/PID/stat after the command's name: the first is the third of proc(5)."""
    return pathlib.Path(f"/proc/{pid}/stat").read_text().rpartition(")")[2].split()


def tree(pid):
    """A process and all its descendants."""
    try:
        threads = list(pathlib.Path(f"/proc/{pid}/task").iterdir())
        children = " ".join((thread / "children").read_text() for thread in threads).split()
    except OSError:
        return [pid]
    return [pid, *(each for child in children for each in tree(int(child)))]


def spent(pid):
    """Seconds of processor, user's and system's."""
    return sum(int(word) for word in fields(pid)[11:13]) / TICKS


def waits(pid):
    text = pathlib.Path(f"/proc/{pid}/status").read_text()
    return int(re.search(r"^voluntary_ctxt_switches:\s+(\d+)", text, re.M)[1])


def descriptors(pid):
    return len(os.listdir(f"/proc/{pid}/fd"))


def pages(pid, place):
    words = pathlib.Path(f"/proc/{pid}/statm").read_text().split()
    return int(words[place]) * resource.getpagesize()


def addressed(pid):
    """Octets of addresses."""
    return pages(pid, 0)


def resident(pid):
    """Octets of memory in use."""
    return pages(pid, 1)

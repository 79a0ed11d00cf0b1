"""Instructions of a question with many queries under way, by `valgrind --tool=callgrind`. The
program replays scripts, so neither time nor sockets count: the numbers are the same each time."""
import subprocess

from counting.served import counted
from repository.packing import address, query, reply

FEW, MANY = 10, 1000
# Scripts with fewer and more questions: the difference is of the questions alone.
COUNTS = 100, 600
# How many times a question with few queries under way one with many may take: so no list is walked.
RISE = 1.15

CONFIG = """version = 1
[limits]
questions = 4096
inquiries = 1024
ask_ms = 10000
deadline_ms = 500
[[route]]
suffix = "."
servers = ["192.0.2.1:53"]
---
"""


def asks(text, moment=1000):
    """The event line of a client's question."""
    return f"{moment} client udp 10.0.0.7:40000 {query(text).hex()}"


def answers(line, text):
    """The event line of the reply to the query of event `line`: the script's words give the query
    identifier and port."""
    octets = reply(query(text, identifier=8 * line), 0x8580, [address(300, 192, 0, 2, 1)])
    return f"1000 reply udp {1024 + 8 * line} 192.0.2.1:53 {octets.hex()}"


def opened(under_way):
    return [asks(f"o{k}.example") for k in range(under_way)]


def missed(under_way, count):
    """Queries that get no reply, and then questions with a query and a reply each."""
    lines = opened(under_way)
    for k in range(count):
        lines.append(asks(f"m{k}.example"))
        lines.append(answers(len(lines), f"m{k}.example"))
    return lines


def joined(under_way, count):
    """Queries without reply, and then questions that join the queries in turn."""
    return opened(under_way) + [asks(f"o{k % under_way}.example") for k in range(count)]


def overdue(under_way, count):
    """Questions of queries under way, younger ones of all these queries, and the ticks at which the
    deadlines of the first pass."""
    lines = [asks(f"o{k % under_way}.example") for k in range(count)]
    lines += [asks(f"o{k}.example", 1001) for k in range(under_way)]
    return lines + ["1500 tick"] * count


def each(program, events, under_way):
    """The instructions of a question, from the line in to the actions out."""
    def instructions(count):
        script = (CONFIG + "\n".join(events(under_way, count))).encode()
        return counted(lambda tool: subprocess.run(
            ["valgrind", *tool, program, "replay"], input=script, capture_output=True, check=True))

    fewer, more = COUNTS
    return (instructions(more) - instructions(fewer)) / (more - fewer)


def rises(program):
    """Each kind of question, with the instructions next to few and to many queries."""
    kinds = {"a question, its query and its reply": missed, "a question that joins a query": joined,
             "a question that joins a query, and its deadline": overdue}
    for what, events in kinds.items():
        yield what, *(each(program, events, under_way) for under_way in (FEW, MANY))

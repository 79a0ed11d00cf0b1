"""The counted kinds of answers, the program under a tool of valgrind, a name server, a client."""
import dataclasses
import functools
import pathlib
import re
import socket
import struct
import subprocess
import tempfile

from repository import packing
from repository.packing import CNAME, OF_QUESTION, SOA, code, name, query
from running.forwarder import Service, configuration
from running.nameserver import NameServer

SERVED, SERVER = 15392, 15393
NO_ERROR, NAME_ERROR, REFUSED = 0, 3, 5
HOUR = 3600


def configured(version):
    """A configuration; version 2 also answers expired sets, and denies a suffix."""
    routes = {"example": [SERVER], **({"corp.example": []} if version == 2 else {})}
    limits = {"cache": 65536, **({"stale_s": HOUR} if version == 2 else {})}
    return configuration(f"127.0.0.1:{SERVED}", routes, limits, version)


@dataclasses.dataclass
class Case:
    """A kind of answers: names to be asked in turn, after the names that fill the cache."""

    title: str
    names: list
    filling: list = ()
    code: int = NO_ERROR
    version: int = 1

    def asked(self, count):
        """The questions of so many answers; each `*` is their number, so no name comes twice."""
        return [packing.query(self.names[k % len(self.names)].replace("*", str(k)))
                for k in range(count)]

    def config(self):
        return configured(self.version)


def record(owner, kind, data):
    return packing.record(owner, kind, HOUR, data)


def reply(query):
    """An alias for names that begin with `alias`, a name error for `gone.example` and below, and an
    address for all else."""
    asked = query[12:]
    if asked[1:6] == b"alias":
        target = name("target.example")
        alias = record(OF_QUESTION, CNAME, target)
        address = packing.address(HOUR, 192, 0, 2, 1, owner=target)
        return packing.reply(query, 0x8580, [alias, address])
    if name("gone.example") in asked:
        start = b"\0\0" + struct.pack(">5I", 1, 2, 3, 4, HOUR)
        authority = [record(name("example"), SOA, start)]
        return packing.reply(query, 0x8580 | NAME_ERROR, authority=authority)
    return packing.reply(query, 0x8580, [packing.address(HOUR, 192, 0, 2, 1)])


def ten(form):
    return [form.format(k) for k in range(10)]


TEN, ALIASES, GONE = ten("n{}.example"), ten("alias{}.example"), ["gone.example"]
CASES = [
    Case("a cached answer, ten names", TEN, TEN),
    Case("the same, with `stale_s` and a route that denies", TEN, TEN, version=2),
    Case("the same, after one alias", ALIASES, ALIASES),
    Case("a denied name", GONE, GONE, NAME_ERROR),
    Case("two labels below a denied name", ten("{}.n.gone.example"), GONE, NAME_ERROR),
    Case("a name that the configuration denies", ten("n{}.corp.example"), (), NAME_ERROR, 2),
    Case("a refused question", ["a.elsewhere"], (), REFUSED),
    Case("a miss: question, query and reply", ["m*.example"]),
]
# Questions sent at once, before the replies are read, so the program seldom waits.
AT_ONCE = 20


class Unexpected(Exception):
    """An answer that is not a case's."""


def ask(client, questions, wanted):
    """Sends these questions at once, and reads a reply to each."""
    for asked in questions:
        client.send(asked)
    for _ in questions:
        found = code(client.recv(512))
        if found != wanted:
            raise Unexpected(f"result code {found} in place of {wanted}")


def is_refused(client):
    """Whether the program serves, by a question to be refused."""
    try:
        ask(client, [query("a.elsewhere")], REFUSED)
    except ConnectionRefusedError:
        return False
    return True


@functools.cache
def name_server():
    """The name server of all cases, from the first one on."""
    return NameServer(reply, port=SERVER)


def ask_all(program, case, count, tool):
    """Asks the questions of a case, once the cache is filled, of the program under a tool."""
    name_server()
    more = {"stdout": subprocess.DEVNULL, "stderr": subprocess.DEVNULL, "patience": None}
    with tempfile.TemporaryDirectory() as made, socket.socket(type=socket.SOCK_DGRAM) as client:
        file = pathlib.Path(made) / "config"
        file.write_text(case.config())
        client.settimeout(5)
        client.connect(("127.0.0.1", SERVED))
        with Service(program, file, before=["valgrind", *tool], **more) as service:
            service.wait_until(lambda: is_refused(client), pause=0.1)
            for text in case.filling:
                ask(client, [query(text)], NAME_ERROR if "gone" in text else NO_ERROR)
            asked = case.asked(count)
            for first in range(0, count, AT_ONCE):
                ask(client, asked[first:first + AT_ONCE], case.code)


def counted(run):
    """The instructions of a run; `run` gets the words of valgrind's tool."""
    with tempfile.TemporaryDirectory() as made:
        file = pathlib.Path(made) / "counted"
        run(["--tool=callgrind", f"--callgrind-out-file={file}"])
        return int(re.search(r"^(?:summary|totals): (\d+)", file.read_text(), re.M)[1])

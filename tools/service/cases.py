"""The cases of tools/loopback, and the programs of each."""
import contextlib
import ctypes
import os
import resource
import shutil
import signal
import socket
import struct
import subprocess
import tempfile
import threading
import time

from repository.packing import code, framed, take_frame
from running.forwarder import Service, configuration
from running.nameserver import NameServer, free_port
from running.programs import WHOLE_LIFE, listens
from running.trying import NotHere, until

from .messages import SERVFAIL, expect, is_answer, question, reply_to

CASES = []
NOT_HELD = {}  # cases with more traffic, on purpose, than the step's; each with the reason
STARTED = []  # the configurations of the forwarders that were started
LIMITS = {"ask_ms": 1500, "deadline_ms": 5000}


def case(function):
    CASES.append(function)
    return function


def not_held(why):
    """Marks a case as not held against the claim."""
    def marked(function):
        NOT_HELD[function.__name__] = why
        return case(function)

    return marked


class Server(NameServer):
    """A name server, by default with an address for each name."""

    def __init__(self, by_udp=reply_to, over_tcp=None, **more):
        super().__init__(by_udp, over_tcp or self.framing(reply_to), **more)


class Forwarder(Service):
    """The service, with a route `example` to some servers, and the limits LIMITS if none is given.
    `others` has the servers of further suffixes."""

    def __init__(self, program, servers, others=None, turns=WHOLE_LIFE, address="127.0.0.1",
                 version=1, bounds=(), **limits):
        """`bounds` has a value for each resource that is bounded (setrlimit(2))."""
        self.address, self.port = address, free_port()
        routes = {suffix: [getattr(each, "port", each) for each in of_suffix]
                  for suffix, of_suffix in {"example": servers, **(others or {})}.items()}
        text = configuration(f"{address}:{self.port}", routes, limits or LIMITS, version)
        self.file = written(text)
        STARTED.append(text)

        def bound():
            for kind, value in bounds:
                resource.setrlimit(kind, (value, value))

        pipes = {"stdout": subprocess.PIPE, "stderr": subprocess.PIPE}
        super().__init__(program, self.file.name, turns, preexec_fn=bound, **pipes)
        until(lambda: listens(address, self.port) or self.has_ended(), 5, "it doesn't listen")

    def __exit__(self, *_):
        if not self.has_ended():
            self.process.kill()
        self.process.communicate()
        self.file.close()

    def udp(self):
        client = socket.socket(type=socket.SOCK_DGRAM)
        client.settimeout(8)
        client.connect((self.address, self.port))
        return client

    def tcp(self):
        client = socket.create_connection((self.address, self.port))
        client.settimeout(14)
        return client

    def ask_udp(self, asked):
        with self.udp() as client:
            client.send(asked)
            return client.recv(65535)

    def ask_tcp(self, asked):
        with self.tcp() as client:
            return answer_on(client, asked)

    def answers(self, text="a.example"):
        is_answer(self.ask_udp(question(text)), question(text))

    def fails(self, text="a.example"):
        expect(code(self.ask_udp(question(text))), SERVFAIL)

    def is_well(self, text="well.example"):
        for ask in (self.ask_udp, self.ask_tcp):
            is_answer(ask(question(text)), question(text))
        expect(self.process.poll(), None)

    def ends_with(self, *wanted):
        """Compares output, standard error and status of a service that ends by itself."""
        printed, errors = self.process.communicate(timeout=30)
        expect((printed, errors, self.process.returncode), wanted)


def descriptors_at_most(count):
    return [(resource.RLIMIT_NOFILE, count)]


def answer_on(client, asked):
    """The reply to a question on a connection."""
    client.sendall(framed(asked))
    return take_frame(client)


def is_served(client, text="a.example"):
    is_answer(answer_on(client, question(text)), question(text))


def reset(client):
    """Closes a connection at once (socket(7))."""
    client.setsockopt(socket.SOL_SOCKET, socket.SO_LINGER, struct.pack("ii", 1, 0))
    client.close()


@contextlib.contextmanager
def within(seconds, what="it took too long"):
    """A block that takes no longer, or fails."""
    began = time.monotonic()
    yield
    took = time.monotonic() - began
    if took > seconds:
        raise AssertionError(f"{what}: {took:.1f} s in place of {seconds}")


@contextlib.contextmanager
def stopped(forwarder):
    """The forwarder is stopped, and goes on afterwards."""
    forwarder.signal(signal.SIGSTOP)
    try:
        yield
    finally:
        forwarder.signal(signal.SIGCONT)


def need(*tools):
    missing = [tool for tool in tools if not shutil.which(tool)]
    if missing:
        raise NotHere(f"it wants {' and '.join(missing)}")


@contextlib.contextmanager
def refusing(pid, calls):
    """The system refuses these calls of a process, in the words of strace(1)."""
    need("strace")
    tracing = ["strace", "-o", os.devnull, "-e", f"inject={calls}", "-p", str(pid)]
    strace = subprocess.Popen(tracing, stderr=subprocess.PIPE, text=True)
    try:
        said = strace.stderr.readline().strip()
        if not said.endswith("attached"):
            raise NotHere(said)
        yield
    finally:
        strace.terminate()
        strace.communicate()


def written(octets):
    """A temporary file with a text or octets, to be closed."""
    file = tempfile.NamedTemporaryFile(suffix=".toml")
    file.write(octets.encode() if isinstance(octets, str) else octets)
    file.flush()
    return file


def run_of(program, *words, given=b"", out=subprocess.PIPE, errors=subprocess.PIPE, closed=None,
           memory=None):
    """Output, standard error and status of a run. The descriptor `closed` is closed before."""
    def bound():
        if memory:
            resource.setrlimit(resource.RLIMIT_AS, (memory, memory))
        if closed is not None:
            os.close(closed)

    ended = subprocess.run([program, *words], input=given, stdout=out, stderr=errors,
                           preexec_fn=bound)
    return ended.stdout, ended.stderr, ended.returncode


PIDFD_GETFD = 438  # the number of the system call on x86-64; Python has no call of that name


def system_call(name, *given):
    """The result of a call of the C library; NotHere if the system refuses."""
    result = getattr(ctypes.CDLL(None, use_errno=True), name)(*given)
    if result < 0:
        raise NotHere(f"{name}: {os.strerror(ctypes.get_errno())}")
    return result


def sockets_of(pid):
    """The sockets of another process, shared with this one: pidfd_getfd(2)."""
    process, found = os.pidfd_open(pid), []
    try:
        for descriptor in map(int, os.listdir(f"/proc/{pid}/fd")):
            if os.readlink(f"/proc/{pid}/fd/{descriptor}").startswith("socket:"):
                own = system_call("syscall", PIDFD_GETFD, process, descriptor, 0)
                found.append(socket.socket(fileno=own))
    finally:
        os.close(process)
    return found


CLONE_NEWNET = 0x40000000


def in_a_network_of_its_own(body, rules=None):
    """Runs the body in a network with a loopback alone, under these rules for nft(8), if any. Only
    root may make a network."""
    need("ip", *(["nft"] if rules else []))
    faults = []

    def run():
        try:
            system_call("unshare", CLONE_NEWNET)
            subprocess.run(["ip", "link", "set", "lo", "up"], check=True)
            if rules:
                subprocess.run(["nft", rules], check=True)
            body()
        except Exception as fault:  # raised again where the case runs
            faults.append(fault)

    # Only this thread, with its own threads and programs, is in the network.
    thread = threading.Thread(target=run)
    thread.start()
    thread.join()
    for fault in faults:
        raise fault

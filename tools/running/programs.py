"""Programs of this machine: their places, their start, their end."""
import contextlib
import os
import pathlib
import shutil
import signal
import socket
import subprocess
import sys

from repository.crates import TOP
from repository.packing import code, framed, take_frame
from running import trying

MAIN = TOP / "crates" / "forwarder_main"
PROGRAM = MAIN / "out" / "forwarder_main"
WHOLE_LIFE = 2**64 - 1  # turns of the service
PATH = os.environ.get("PATH", "") + ":/usr/sbin:/sbin"
# SIGTERM interrupts a tool, as Ctrl-C does: so the tool ends its programs.
signal.signal(signal.SIGTERM, signal.default_int_handler)


class Ended(AssertionError):
    """A program that ended too early."""


def path(command):
    return shutil.which(command, path=PATH)


def missing(*commands):
    """The commands that are not installed."""
    return [command for command in commands if not path(command)]


def built(words):
    """The program at the path in `words`, or the built program; a missing program is built. An
    option in its place ends the tool with the tool's text."""
    program = str(words[0] if words else PROGRAM)
    if program.startswith("-"):
        sys.exit(sys.modules["__main__"].__doc__.strip())
    if not words or not os.path.exists(program):
        check = ["rt", "run", "--", "check", str(TOP / "examples" / "office.toml")]
        subprocess.run(check, cwd=MAIN, stdout=subprocess.DEVNULL, check=True)
    return program


def output(*words):
    return subprocess.run(words, capture_output=True, text=True, check=True).stdout


def on(processors, words):
    """A command, bound to these processors if there are four."""
    return ["taskset", "-c", str(processors), *words] if os.cpu_count() >= 4 else [*words]


def listens(address, port, source=""):
    """Whether a connection to this place is accepted."""
    try:
        socket.create_connection((address, port), 1, (source, 0)).close()
    except OSError:
        return False
    return True


def answers(address, port, query, over_tcp=False):
    """Whether a query is answered without a fault (RFC 1035 4.1.1) at this place."""
    with socket.socket(type=socket.SOCK_STREAM if over_tcp else socket.SOCK_DGRAM) as client:
        client.settimeout(0.2)
        try:
            client.connect((address, port))
            client.send(framed(query) if over_tcp else query)
            return code(take_frame(client) if over_tcp else client.recv(512)) == 0
        except (OSError, EOFError):
            return False


class Program:
    """A running program, with a group of processes of its own, which ends as a whole."""

    def __init__(self, words, log=None, patience=5, **more):
        """The output goes to the end of the file `log`, if any. `patience`: seconds for the end."""
        self.words, self.log, self.patience = [str(word) for word in words], log, patience
        with open(log, "ab") if log else contextlib.nullcontext() as file:
            more = {**more, **({"stdout": file, "stderr": file} if log else {})}
            self.process = subprocess.Popen(self.words, start_new_session=True, **more)

    @property
    def pid(self):
        return self.process.pid

    def has_ended(self):
        return self.process.poll() is not None

    def expect_running(self):
        if self.has_ended():
            said = pathlib.Path(self.log).read_text(errors="replace")[-500:] if self.log else ""
            raise Ended(f"{self.words[0]} ended with {self.process.returncode} {said}".strip())

    def wait_until(self, is_ready, seconds=20, pause=0.01):
        """Waits until the program is ready; otherwise ends the program."""
        def ready():
            self.expect_running()
            return is_ready()

        try:
            trying.until(ready, seconds, f"{self.words[0]} is not ready", pause)
        except BaseException:
            self.kill()
            raise

    def signal(self, number):
        """Sends a signal to all its processes."""
        with contextlib.suppress(ProcessLookupError):
            os.killpg(self.pid, number)

    def kill(self):
        self.signal(signal.SIGKILL)
        self.process.wait()

    def stop(self):
        """Ends the program by SIGTERM, or by SIGKILL after `patience`."""
        self.signal(signal.SIGTERM)
        try:
            self.process.wait(self.patience)
        except subprocess.TimeoutExpired:
            self.kill()

    def __enter__(self):
        return self

    def __exit__(self, *_):
        self.stop()

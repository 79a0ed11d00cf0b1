"""The measured programs, and the start of each."""
import contextlib
import os
import pathlib
import shutil
import subprocess

from repository.packing import query
from running import programs
from running.foreign import text
from running.forwarder import configuration
from running.programs import WHOLE_LIFE, on, output

SERVED, SERVER = 5300, 5301
NAMES = 10_000
# The processors of the server that all ask, of the measured program, and of the asking programs.
ASKED_ON, MEASURED_ON, ASKS_ON = "1", "2", "0,3"
QUESTION = query("ready.example")


class Peer:
    """A program to be measured, at the port SERVED: a package's `command`, the words after the
    command, and the text of a configuration, both with the folder to be filled in."""

    def __init__(self, command, options, config="", key="", title="", package=""):
        self.command, self.options, self.config = command, options, config
        self.key, self.title, self.package = key or command, title or command, package or command

    def is_installed(self):
        return not programs.missing(self.command)

    def version(self):
        """The version of the Debian package that has the program; empty if none has."""
        path = os.path.realpath(programs.path(self.command))
        with contextlib.suppress(OSError, subprocess.CalledProcessError):
            owner = output("dpkg-query", "-S", path).partition(":")[0]
            return owner and output("dpkg-query", "-W", "-f", "${Version}", owner)
        return ""

    def words(self, folder):
        """The command line, once the configuration is written into the folder."""
        (folder / "conf").write_text(self.config.format(
            folder=folder, address="127.0.0.1", port=SERVED, server=SERVER, room=2 * NAMES))
        options = self.options.format(folder=folder).split()
        return [programs.path(self.command), *options]


class Forwarder:
    """The program of this repository, at the path that the user gave."""

    key, title = "forwarder", "this forwarder"

    def __init__(self, path, suffix=".", cache=NAMES):
        self.file, self.suffix, self.cache = str(pathlib.Path(path).resolve()), suffix, cache

    @staticmethod
    def version():
        return ""

    def words(self, folder):
        limits = {"cache": self.cache, "questions": 4096, "inquiries": 1024}
        text = configuration(f"127.0.0.1:{SERVED}", {self.suffix: [SERVER]}, limits)
        (folder / "forwarder.toml").write_text(text)
        return [self.file, "serve", folder / "forwarder.toml", WHOLE_LIFE]


class Bare:
    """A bare program; `way` is the first word."""

    key, title = "bare", "bare"

    def __init__(self, file, way):
        self.file, self.way = str(file), way

    def words(self, _):
        return [self.file, self.way, SERVED, *([SERVER] if self.way == "relay" else [])]


PEERS = [
    Peer("unbound", "-d -c {folder}/conf", text("unbound", "unbound_forwarding")),
    Peer("dnsmasq", "-k --conf-file=/dev/null --no-resolv --no-hosts --pid-file= --user=root "
         f"--group= --bind-interfaces --listen-address=127.0.0.1 --port={SERVED} "
         f"--server=127.0.0.1#{SERVER} --cache-size={NAMES} --dns-forward-max=4096"),
    Peer("kresd", "-n -c {folder}/conf {folder}", text("kresd"),
         title="Knot Resolver", package="knot-resolver"),
    Peer("dnsdist", "--supervised --disable-syslog -C {folder}/conf", text("dnsdist")),
    Peer("pdns_recursor", "--config-dir={folder} --socket-dir={folder} --setuid= --setgid= "
         "--daemon=no --loglevel=3 --disable-syslog=yes --security-poll-suffix= --dont-query= "
         f"--dnssec=off --local-address=127.0.0.1 --local-port={SERVED} "
         f"--forward-zones-recurse=.=127.0.0.1:{SERVER} --threads=1 --pdns-distributes-queries=no "
         f"--max-cache-entries={2 * NAMES} --max-packetcache-entries={2 * NAMES}",
         key="recursor", title="PowerDNS Recursor", package="pdns-recursor"),
]


class Failed(Exception):
    """A program without the measured answers."""


@contextlib.contextmanager
def running(program, folder):
    """Runs the program with a folder of its own until the block ends; gives its number."""
    own = folder / f"run-{program.key}"
    shutil.rmtree(own, ignore_errors=True)
    own.mkdir()
    words = on(MEASURED_ON, list(map(str, program.words(own))))
    log = folder / f"run-{program.key}.log"
    with programs.Program(words, log=log, patience=0, cwd=own, stdin=subprocess.DEVNULL) as process:
        over_tcp = isinstance(program, Bare) and program.way == "stream"
        try:
            process.wait_until(
                lambda: programs.answers("127.0.0.1", SERVED, QUESTION, over_tcp))
        except AssertionError as fault:
            raise Failed(f"it did not start: {fault}")
        yield process.pid


class Asked:
    """The server that all ask, until the block ends; `questions` says how many came."""

    def __init__(self, bare, folder):
        self.counted = folder / "counted"
        self.counted.write_bytes(bytes(8))
        self.words = on(ASKED_ON, [bare, "answer", SERVER, self.counted])

    def __enter__(self):
        self.process = programs.Program(self.words)
        return self

    def questions(self):
        return int.from_bytes(self.counted.read_bytes(), "little")

    def __exit__(self, *_):
        self.process.kill()

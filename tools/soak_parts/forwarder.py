"""The forwarder in the office: its configuration, and its process under a faster clock."""
import os
import pathlib
import subprocess

from running import programs
from running.forwarder import Service, configuration
from soak_parts import sampling
from soak_parts.office import DENIED, FORWARDER, HARNESS, ROUTES, STALE

LIBRARY = pathlib.Path("/usr/lib/x86_64-linux-gnu/faketime/libfaketime.so.1")  # as Debian has it
SOURCE = pathlib.Path(__file__).resolve().parent / "short_waits.c"
CACHE = 1000  # entries, fewer than a day has names: the cache is full, and evicts
# Milliseconds of the office: a thousandth for the servers, on a clock a thousand times as fast.
ASK, DEADLINE = 5000, 24_000
LIMITS = {"cache": CACHE, "questions": 4096, "inquiries": 1024, "tries": 4, "ask_ms": ASK,
          "deadline_ms": DEADLINE, "stale_s": STALE}


def configured():
    routes = {suffix: [f"{server}:53" for server in servers] for suffix, servers in ROUTES.items()}
    return configuration(f"{FORWARDER}:53", {**routes, DENIED: []}, LIMITS, version=2)


def missing():
    """What a faster clock lacks."""
    return programs.missing("gcc") + ([] if LIBRARY.exists() else ["libfaketime"])


def built_waits(folder):
    """The library by which the program waits less than a millisecond."""
    file = folder / "short_waits.so"
    subprocess.run(["gcc", "-O2", "-shared", "-fPIC", "-o", file, SOURCE], check=True)
    return file


class Lives:
    """The program under a clock `speed` times as fast, from each start to the next end."""

    def __init__(self, program, folder, speed):
        self.program, self.config = program, folder / "forwarder.toml"
        self.config.write_text(configured())
        self.environment = {**os.environ, "LD_PRELOAD": f"{built_waits(folder)}:{LIBRARY}",
                            "FAKETIME": f"+0 x{speed}", "SOAK_SPEED": str(speed)}
        self.service, self.lives = None, []

    def start(self):
        """Starts the program; returns once the program listens."""
        self.service = Service(self.program, self.config, env=self.environment)
        self.lives.append(sampling.Life([]))
        listens = lambda: programs.listens(FORWARDER, 53, HARNESS)  # noqa: E731 (a short name)
        self.service.wait_until(listens, 5, 0.001)

    def sample(self, now):
        self.service.expect_running()
        self.lives[-1].samples.append(sampling.sample(self.service.pid, now))

    def stop(self):
        if self.service:
            self.service.stop()

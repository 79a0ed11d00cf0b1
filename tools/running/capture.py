"""Captures of the loopback, and the comparison of their answers with the forwarder's step.

A capture takes root, tcpdump and python3-dpkt; `explain/` compares. With KEEP in the environment
the capture and the configuration of a difference are copied to that folder.
"""
import os
import pathlib
import shutil
import signal
import socket
import subprocess
import tempfile

from running import programs, trying

EXPLAIN = programs.TOP / "explain" / "forwarder-explain"
FILLER = 65000  # octets


def missing():
    """The thing that a capture lacks here, or None."""
    if os.geteuid() != 0:
        return "root"
    if programs.missing("tcpdump"):
        return "tcpdump"
    reads = subprocess.run(["/usr/bin/python3", "-c", "import dpkt"], stderr=subprocess.DEVNULL)
    return None if reads.returncode == 0 else "python3-dpkt"


class Capture:
    """A capture of the loopback during a block, in a file of a folder of its own or at a path."""

    def __init__(self, file=None, options=(), only="udp or tcp or icmp"):
        """`options` and the filter `only` go to tcpdump."""
        self.folder = None if file else tempfile.TemporaryDirectory()
        self.file = pathlib.Path(file or pathlib.Path(self.folder.name) / "capture")
        self.words = [*options, "-w", self.file, only]
        self.lost = 0

    def __enter__(self):
        tcpdump = [programs.path("tcpdump"), "-i", "lo", "-n", "-U", "-B", "65536", "-Z", "root"]
        self.process = subprocess.Popen([*tcpdump, *self.words], stderr=subprocess.PIPE, text=True)
        while "listening" not in (line := self.process.stderr.readline()):
            if not line:
                raise AssertionError("tcpdump ended")
        return self

    def __exit__(self, *_):
        self.wait_for_all()
        self.process.send_signal(signal.SIGINT)
        said = self.process.communicate()[1].splitlines()
        self.lost = sum(int(line.split()[0]) for line in said if "dropped by kernel" in line)

    def wait_for_all(self):
        """Waits until the file has all packets. tcpdump reads packets by blocks: a full block, or
        the packets of a second."""
        last = os.urandom(16)
        with socket.socket(type=socket.SOCK_DGRAM) as sink, open(self.file, "rb") as file:
            sink.bind(("127.0.0.1", 0))
            file.seek(0, os.SEEK_END)
            sink.sendto(last, sink.getsockname())
            found = b""

            def is_written():
                nonlocal found
                sink.sendto(bytes(FILLER), sink.getsockname())
                found = found[-len(last):] + file.read()
                return last in found

            trying.until(is_written, 10, "tcpdump does not write its capture", 0.001)

    def differs(self, program, configuration):
        """The first difference from the step of a service with this configuration, or None."""
        if self.lost:
            print(f"not held against the claim, since the capture lost {self.lost} packets")
            return None
        config = self.file.with_name("config.toml")
        config.write_text(configuration)
        words = ["--program", os.path.abspath(program), "--summary", config, self.file]
        ran = subprocess.run([EXPLAIN, *words], capture_output=True, text=True)
        if ran.returncode == 0 or "has no question to" in ran.stderr:
            return None
        if kept := os.environ.get("KEEP"):
            shutil.copytree(self.file.parent, kept, dirs_exist_ok=True)
        place = ran.stdout.find("DIFFERENT")
        line = ran.stdout.rfind("\n", 0, ran.stdout.rfind("\n", 0, place)) + 1 if place >= 0 else 0
        return f"an answer is different: {ran.stdout[line:place + 1000] or ran.stderr}"

    def close(self):
        self.folder.cleanup()

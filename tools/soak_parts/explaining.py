"""Each life of the forwarder, explained from its capture (forwarder-explain)."""
import json
import os
import pathlib
import subprocess
import sys
import threading
from collections import Counter

EXPLAIN = pathlib.Path(__file__).resolve().parent.parent.parent / "explain" / "forwarder-explain"
TIMES = pathlib.Path(__file__).resolve().parent / "times.py"
# Answers of which one may be open: the capture has all from the beginning of each life.
MOST_OPEN = 50


def aside():
    """The words that run a command on one processor, while idle."""
    last = str(max(os.sched_getaffinity(0)))
    return ["chrt", "--other", "0", "nice", "-n", "19", "taskset", "-c", last]


class Explanation(threading.Thread):
    """Explains a file with the times of the office, and reads what was found."""

    def __init__(self, program, config, file):
        super().__init__()
        self.program, self.config, self.file = program, config, pathlib.Path(file)
        self.status, self.counts, self.reasons = None, {}, Counter()
        self.different, self.notes = [], []

    def run(self):
        said, script = self.file.with_suffix(".json"), self.file.with_suffix(".script")
        words = ["--program", self.program, "--json", "--script", script, self.config, self.file]
        with open(said, "wb") as out:
            ran = subprocess.run([*aside(), EXPLAIN, *words], stdout=out, stderr=subprocess.PIPE,
                                 text=True, check=False)
        self.status, self.notes = ran.returncode, ran.stderr.splitlines()
        with open(said, encoding="utf-8") as lines:
            for row in map(json.loads, lines):
                self.counts = row.get("summary", self.counts)
                self.reasons.update([row["reason"]] if "reason" in row else [])
                self.different += [row] if row.get("verdict") == "different" else []
        self.counts.pop("version", None)

    def faults(self):
        if not self.counts:
            last = " ".join(self.notes[-1:])
            yield f"{self.file.name} was not explained: status {self.status}, {last}"
        if self.different:
            yield f"{self.file.name}: {len(self.different):,} answers are different"
        if self.counts.get("open", 0) * MOST_OPEN > self.counts.get("questions", 0):
            yield f"{self.file.name}: {self.counts['open']:,} questions are open"


class Ending(Explanation):
    """Ends a capture and has its times multiplied before."""

    def __init__(self, program, config, capture, clock):
        super().__init__(program, config, capture.file.with_suffix(".pcap"))
        self.capture, self.clock = capture, clock

    def run(self):
        self.capture.__exit__()
        words = [self.capture.file, self.file, str(self.clock.began), str(self.clock.speed)]
        subprocess.run([*aside(), sys.executable, "-B", TIMES, *words], check=True)
        self.capture.file.unlink()
        super().run()

    def faults(self):
        if self.capture.lost:
            yield f"{self.file.name}: tcpdump lost {self.capture.lost} packets"
        yield from super().faults()

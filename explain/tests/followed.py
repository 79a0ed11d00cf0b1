"""Tests of --follow: captures that grow in pieces, in a pipe and in a folder whose files turn over."""
import contextlib
import fcntl
import io
import itertools
import os
import pathlib
import queue
import signal
import subprocess
import tempfile
import termios
import threading
import time
import unittest.mock
from types import SimpleNamespace

import many
from forwarder_explain import command, configuration, files, following, times
from forwarder_explain.capture import Capture
from leaving_out import packets_of
from making import START, asked
from office import FIRST, ONE, OTHER, SECOND, Scene
from repository.packing import address

HERE = pathlib.Path(__file__).resolve().parent
CAPTURES = HERE / "captures"
TOOL = HERE.parent / "forwarder-explain"
LONGEST = 30  # seconds for a line: one is usual, ten on a busy machine
PIECED = "answers", "connections", "dropped", "failures", "forgotten_alias", "gaps", "kept_before", "lost", "refused"


class Followed:
    """A run with --follow whose lines are read as they come."""

    def __init__(self, program, capture, *options):
        words = [TOOL, "--program", program, "--follow", *options, "office.toml", capture]
        pipes = dict.fromkeys(("stdin", "stdout", "stderr"), subprocess.PIPE)
        self.run = subprocess.Popen(words, cwd=CAPTURES, env={**os.environ, "TZ": "UTC"}, **pipes)
        self.came = queue.Queue()
        threading.Thread(target=self.read, daemon=True).start()

    def read(self):
        for line in self.run.stdout:
            self.came.put(line.decode())
        self.came.put(None)

    def lines(self, count):
        """The next lines, each within a time; fewer if they are late."""
        found = []
        with contextlib.suppress(queue.Empty):
            while len(found) < count:
                line = self.came.get(timeout=LONGEST)
                if line is None:
                    break
                found.append(line)
        return found

    def write(self, octets):
        self.run.stdin.write(octets)
        self.run.stdin.flush()

    def wait(self):
        """Waits until all octets were read."""
        until = time.monotonic() + LONGEST
        while time.monotonic() < until and any(fcntl.ioctl(self.run.stdin, termios.FIONREAD, bytes(4))):
            time.sleep(0.01)

    def end(self, number=None):
        """The remaining lines, standard error and the status, after the end of the pipe or a signal."""
        if number is None:
            self.run.stdin.close()
        else:
            self.run.send_signal(number)
        left = self.lines(1000)
        said = self.run.stderr.read().decode()
        return left, said, self.run.wait(LONGEST)


def stored(name, ending):
    """The lines stored next to a capture; nothing if there is no such file."""
    path = CAPTURES / f"{name}.{ending}"
    return path.read_text() if path.exists() else ""


def capture_of(name):
    return next(CAPTURES.glob(f"{name}.pcap*")).read_bytes()


def in_pieces(octets, sizes):
    at = 0
    for size in itertools.cycle(sizes):
        if at >= len(octets):
            return
        yield octets[at : at + size]
        at += size


def through_a_pipe(program):
    """Pieces that end anywhere in a packet: the lines are those of a whole run, in a new order. A restart has a line
    once it shows, and again at the end."""
    for name in PIECED:
        run, octets = Followed(program, "-"), capture_of(name)
        for piece in in_pieces(octets, (7, 3, 61, 150, 700)):
            run.write(piece)
            run.wait()
        printed, said, status = run.end()
        wanted = stored(name, "expected").splitlines(keepends=True)
        wanted += [line for line in wanted if line.startswith("the service has begun")]
        errors = stored(name, "errors").replace(f"{name}.pcap", "-")
        met = sorted(printed), sorted(said.splitlines()), status
        yield name, met, (sorted(wanted), sorted(errors.splitlines()), int("DIFFERENT" in "".join(wanted)))


def in_a_folder(program):
    """Two names take turns, as in a ring: each file has some packets, each in two halves. Each line comes soon after
    its answer. A file is removed, and a text is no capture."""
    head, packets = packets_of(capture_of("answers"))
    wanted = stored("answers", "expected").splitlines(keepends=True)
    # How many lines are known after each group of packets: questions 1 to 9 take 4, 2, 4, 2, 4, 2, 2
    # packets, and the last two 6 together.
    groups, lines = (6, 6, 8, 6), (2, 2, 3, 2)
    with tempfile.TemporaryDirectory() as folder:
        folder = pathlib.Path(folder)
        (folder / "text").write_text("no capture\n")
        run = Followed(program, folder, "--from", "2026-11-28T14:03")
        for turn, (group, count) in enumerate(zip(groups, lines)):
            with open(folder / f"seen.pcap{turn % 2}", "wb", 0) as file:
                file.write(head)
                for packet in packets[:group]:
                    file.write(packet[:40])
                    time.sleep(0.01)
                    file.write(packet[40:])
            del packets[:group]
            yield f"turn {turn}", run.lines(count), wanted[:count]
            del wanted[:count]
            if turn == 2:
                (folder / "seen.pcap1").unlink()
        left, _, status = run.end(signal.SIGTERM)
    yield "the end", (left, status), (wanted, 0)


def files_that_get_other_names(program):
    """The capture begins anew, as with packaging/keep_captures: the old file is renamed, and is not read again. A file
    that is renamed before it was read is read."""
    head, packets = packets_of(capture_of("answers"))
    wanted = stored("answers", "expected").splitlines(keepends=True)
    with tempfile.TemporaryDirectory() as folder:
        first, kept = pathlib.Path(folder) / "seen.pcap0", pathlib.Path(folder) / "kept.1795874590.pcap0"
        first.write_bytes(head + b"".join(packets[:6]))
        run = Followed(program, folder, "--from", "2026-11-28T14:03")
        yield "before", run.lines(2), wanted[:2]
        first.rename(kept)
        time.sleep(3 * times.LOOK / times.SECOND)
        first.write_bytes(head + b"".join(packets[6:]))
        yield "after", run.lines(7), wanted[2:9]
        left, said, status = run.end(signal.SIGTERM)
    yield "the end", (left, said, status), (wanted[9:], "", 0)
    said, reader = [], SimpleNamespace(idle=lambda: None, reading=lambda: None)
    with tempfile.TemporaryDirectory() as folder:
        first, second, kept = (pathlib.Path(folder) / name for name in ("seen.pcap0", "seen.pcap1", "kept.1.pcap1"))
        first.write_bytes(head + b"".join(packets[:6]))
        second.write_bytes(head + b"".join(packets[6:]))
        found = files.Ring(folder, reader, said.append).captures()
        size = len(next(found).read(1 << 20))
        second.rename(kept)
        wanted = len(head + b"".join(packets[:6])), head + packets[6][:16], []
        yield "queued", (size, next(found).read(24 + 16), said), wanted


def a_file_written_anew(program):
    """tcpdump begins anew and empties a file while the file is read."""
    head, packets = packets_of(capture_of("answers"))
    wanted = stored("answers", "expected").splitlines(keepends=True)
    with tempfile.TemporaryDirectory() as folder:
        path = pathlib.Path(folder) / "seen.pcap"
        path.write_bytes(head + b"".join(packets[:6]))
        run = Followed(program, path, "--from", "2026-11-28T14:03")
        yield "first", run.lines(2), wanted[:2]
        path.write_bytes(head + b"".join(packets[6:]))
        yield "anew", run.lines(7), wanted[2:9]
        left, said, status = run.end(signal.SIGTERM)
    noted = f"forwarder-explain: {path}: seen.pcap was written anew before all of it was read\n"
    yield "the end", (left, said, status), (wanted[9:], noted, 0)


def ended_by_a_signal(program):
    """Open questions are explained, as at the end of a capture, and the summary is printed.
    """
    for number in (signal.SIGINT, signal.SIGTERM):
        run = Followed(program, "-", "--summary")
        run.write(capture_of("failures"))
        run.wait()
        printed, said, status = run.end(number)
        yield number, ("".join(printed), said, status), (stored("failures", "summary"), "", 0)
    run = Followed(program, "-")
    head, packets = packets_of(capture_of("answers"))
    run.write(head + b"".join(packets[:5]))
    first = run.lines(1)
    printed, said, status = run.end(signal.SIGINT)
    wanted = stored("answers", "expected").splitlines(keepends=True)[:1], "no answer was captured\n", 0
    yield "open", (first, printed[0].partition(": ")[2], status), wanted


class Ended(following.Follower):
    """A signal comes before the first read. The pipe has the packets of a capture by then, and gets `more` for each
    packet taken."""

    def __init__(self, program, octets, more):
        options = command.arguments(["--program", program, "--follow", "--summary", "office.toml", "-"])
        settings = configuration.read(CAPTURES / "office.toml", program)
        super().__init__(options, settings, lambda _: None)
        (self.came_from, self.sent), self.more, self.taken = os.pipe(), more, 0
        os.write(self.sent, octets)

    def reading(self):
        super().reading()
        self.stops = max(1, self.stops)

    def take(self, packet):
        super().take(packet)
        self.taken += 1
        os.write(self.sent, self.more)

    def counted(self):
        """How many packets were taken, and how many questions explained."""
        with open(self.came_from, "rb", 0) as file, open(self.sent, "wb", 0):
            with unittest.mock.patch.object(following, "opened", lambda _: file):
                with unittest.mock.patch.object(following, "Follower", lambda *_: self):
                    with contextlib.redirect_stdout(io.StringIO()):
                        following.follow(self.options, self.settings, self.note)
        return self.taken, self.run.tally.questions


def ended_before_the_first_packet(program):
    """All packets from before the signal are explained. A pipe that never becomes empty is read once more."""
    octets = capture_of("failures")
    packets = packets_of(octets)[1]
    yield "a pipe", Ended(program, octets, b"").counted(), (len(packets), 6)
    yield "without an end", Ended(program, octets, packets[-1]).counted(), (2 * len(packets), 6)


def without_an_answer(program):
    """The answer to a question is missing. The line comes at 5,000 ms, two seconds after the deadline; a question at
    8,000 ms shows the time."""
    scene, name = Scene(), asked("www.example.com")
    scene.question(0, ONE, 1, name)
    scene.replied(0.2, 10.2, FIRST, name, answers=[address(300, 192, 0, 2, 80)])
    scene.fetched(4000, OTHER, 2, asked("new.example.com"), 60, (192, 0, 2, 81))
    scene.fetched(8000, OTHER, 3, asked("more.example.com"), 60, (192, 0, 2, 82))
    run = Followed(program, "-")
    run.write(scene.pcap())
    unanswered = "14:03:00.000 10.0.0.7:40000 udp www.example.com A - -: no answer was captured"
    yield "lines", [line for line in run.lines(3) if " www." in line], [
        f"{unanswered}; asked 192.0.2.1:53 (answered in 10 ms)\n"
    ]
    yield "status", run.end()[2], 0


def reason_among_many(program):
    """500 questions a second are answered from the cache. A further question waits in vain: both servers are silent,
    and the capture lacks the failure."""
    scene, www, lost = Scene(), asked("www.example.com"), asked("lost.example.com")
    scene.fetched(0, OTHER, 0, www, 300, (192, 0, 2, 80))
    for place in range(10, 3500):
        at = 2 * place + 1
        left = 300 - -(-(at - 10) // 1000)  # accepted at 10 ms
        scene.told(at, at + 0.1, f"10.0.1.9:{2000 + place}", place, www, answers=[address(left, 192, 0, 2, 80)])
    scene.question(1000, ONE, 1, lost)
    scene.query(1000.2, FIRST, lost)
    scene.query(2001.2, SECOND, lost)
    settings = configuration.read(CAPTURES / "office.toml", program)
    printed, _ = followed(program, settings, scene.pcap())
    asked_both = f"asked {FIRST} (silent for 1,001 ms), {SECOND} (no reply)"
    wanted = [f"14:03:01.000 {ONE} udp lost.example.com A - -: no answer was captured; {asked_both}"]
    yield "line", [line for line in printed if " lost." in line], wanted


def how_far_behind(program):
    """Each second of the capture takes two from 14:03:01 on, and half a one from 14:03:11 on."""
    scene, said, clock = Scene(), [], [0]
    for second in range(40):
        scene.fetched(1000 * second, ONE, second, asked(f"n{second}.example.com"), 300, (192, 0, 2, second))
    settings = configuration.read(CAPTURES / "office.toml", program)
    options = command.arguments(["--program", program, "--follow", "--summary", "office.toml", "-"])
    with unittest.mock.patch.object(following, "now", lambda: clock[0]), contextlib.redirect_stdout(io.StringIO()):
        follower = following.Follower(options, settings, said.append)
        for packet in Capture(io.BytesIO(scene.pcap())).packets():
            second = (packet[0] - START) / 1_000_000
            passed = min(second, 1) + 2 * max(0, min(second, 11) - 1) + max(0, second - 11) / 2
            clock[0] = round(1_000_000 * passed)
            follower.take(packet)
        follower.end()
    # At 14:03:06 and at 14:03:11 as many seconds more than at the beginning have passed; at 14:03:29 one.
    yield said, [*said], ["5 s behind what comes", "10 s behind what comes", "no longer behind what comes"]


def ended_by_a_second_signal(program):
    """A capture comes faster than it is explained. After a signal the packets from before are still explained, and
    after a second signal no more."""
    settings = configuration.read(CAPTURES / "office.toml", program)
    options = command.arguments(["--program", program, "--follow", "--summary", "office.toml", "-"])
    said, octets = [], capture_of("failures")
    came, sent = os.pipe()
    with open(sent, "wb", 0) as file:
        file.write(octets)
    taken = []

    def take(follower, packet):
        taken.append(packet)
        if len(taken) in (15, 20):
            os.kill(os.getpid(), signal.SIGINT if len(taken) == 15 else signal.SIGTERM)
        put(follower, packet)

    put = following.Follower.take
    with open(came, "rb", 0) as file, unittest.mock.patch.object(following, "opened", lambda _: file):
        with unittest.mock.patch.object(following.Follower, "take", take):
            with contextlib.redirect_stdout(io.StringIO()) as printed:
                status = following.follow(options, settings, said.append)
    yield "taken", (len(taken), status), (20, False)
    yield "said", [each.rpartition(" ")[0][:-2] for each in said[-1:]], ["a second signal ended the run: left out"]
    yield "printed", "0 different" in printed.getvalue(), True


def wrong_words(program):
    """Options for whole captures are refused, and so is a missing folder."""
    for words in (["--at", "14:03"], ["--to", "14:03"], ["--script", "s"]):
        printed, said, status = Followed(program, "-", *words).end()
        refusal = f"forwarder-explain: error: {words[0]} is not for --follow"
        yield words, (printed, said.splitlines()[-1], status), ([], refusal, 2)
    wanted = [], "forwarder-explain: /nowhere: No such file or directory\n", 2
    yield "/nowhere", Followed(program, "/nowhere").end(), wanted


def packet_by_packet(program):
    """Each stored capture packet by packet: the lines are those of a whole run, in a new order."""
    settings = configuration.read(CAPTURES / "office.toml", program)
    for path in sorted(CAPTURES.glob("*.pcap*")):
        wanted = stored(path.stem, "expected").splitlines()
        if wanted[0].startswith("0 questions") or path.stem in AFTERWARDS:
            continue
        words = stored(path.stem, "options").split()
        printed, _ = followed(program, settings, path.read_bytes(), words)
        wanted += [line for line in wanted if line.startswith("the service has begun") and "told" not in line]
        yield path.stem, sorted(printed), sorted(wanted)


def known_later(program):
    """Captures whose later packets say more: packet by packet some answers are open or have another time."""
    settings = configuration.read(CAPTURES / "office.toml", program)
    for name, count in AFTERWARDS.items():
        path = next(CAPTURES.glob(f"{name}.pcap*"))
        printed, _ = followed(program, settings, path.read_bytes())
        yield name, sum("DIFFERENT" in line for line in printed), count


# Captures that say more to a whole run: the number of answers called different packet by packet.
AFTERWARDS = {"counted_loss_of_a_reply": 2}


def followed(program, settings, octets, words=()):
    """The lines of a capture that comes packet by packet, and the remarks."""
    os.environ["TZ"] = "UTC"
    time.tzset()
    options = command.arguments(["--program", program, "--follow", *words, "office.toml", "-"])
    said = []
    with contextlib.redirect_stdout(io.StringIO()) as printed:
        follower = following.Follower(options, settings, said.append)
        for packet in Capture(io.BytesIO(octets)).packets():
            follower.take(packet)
        follower.end()
    return printed.getvalue().splitlines(), said


def nothing_grows(program):
    """With twice as many questions no more are remembered than the last seconds have."""
    settings, most = configuration.read(CAPTURES / "office.toml", program), []
    for count in (2000, 4000):
        largest = [0]

        def look(follower):
            explaining = follower.run and follower.run.explaining
            if explaining:
                kept = explaining.traffic.clients.count + len(explaining.due) + len(explaining.sent)
                largest[0] = max(largest[0], kept + len(explaining.held) + len(follower.order.waiting))

        put, calls = following.Follower.take, iter(range(10**9))
        take = lambda own, packet: (put(own, packet), next(calls) % 500 or look(own))  # noqa: E731
        with unittest.mock.patch.object(following.Follower, "take", take):
            followed(program, settings, many.many(count, 4.0))
        most.append(largest[0])
    yield most, most[1] < 1.2 * most[0], True

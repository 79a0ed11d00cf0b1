"""Plays a scene: each step is a method, called with the words of its line."""
import dataclasses
import itertools
import os
import pathlib
import random
import re
import signal
import socket
import struct
import threading
import time

import world
from asking import Clients
from serving import NameServers

SCENES = pathlib.Path(__file__).resolve().parent / "scenes"
OF_THE_SCENE = ("part", "running", "interface", "filter", "routes", "listen", "strace")
RANGE = re.compile(r"\[(\w+)-(\w+)\]")
NUMBERED = {"ttl": range(4), "n": range(2, 40, 9), "hop": range(1, 9), "slow": range(20, 260, 40),
            "rcode": (2, 5), "aliasttl": range(3), "forged": ("id-port-source", "address-query")}
ODD = [b"\0\1\1\0" + bytes(8), b"\0\2\x29\0\0\1" + bytes(6) + b"\1a\0\0\1\0\1", b"\0\3\1\0", b""]


@dataclasses.dataclass
class Scene:
    """A scene as written."""

    name: str
    about: str
    settings: dict
    steps: list

    @property
    def text(self):
        """The configuration."""
        own = {key: value for key, value in self.settings.items() if key not in OF_THE_SCENE}
        listen = self.settings.get("listen", f"{world.MACHINE}:53")
        routes = getattr(world, self.settings.get("routes", "ROUTES"))
        return world.configuration(listen=listen, routes=routes, **own)


def scenes():
    """All scenes by their names."""
    found = {}
    for part in SCENES.read_text().split("\n== ")[1:]:
        head, about, *steps = [line for line in part.splitlines() if line]
        name, *words = head.split()
        settings = dict(word.split("=", 1) if "=" in word else (word, "") for word in words)
        found[name] = Scene(name, about, settings, steps)
    return found


def chosen_scene(name):
    """A scene by chance: `random_7` never changes."""
    chance = random.Random(name)
    labels = ["nx", "nodata", "cut", "cross", "bare", "ns", "lame", "silent", "broken", "nosoa",
              *[f"{word}-{number}" for word, numbers in NUMBERED.items() for number in numbers]]
    names = [".".join([*chance.sample(labels, chance.choice([0, 1, 1, 2, 3])), f"host{number}",
                       chance.choice(["example", "corp.example", "lan", "printers.lan"])])
             for number in range(25)]
    steps = []
    for _ in range(60):
        some = " ".join(chance.choices(names, k=chance.choice([1, 2, 5, 9])))
        client = f"@{chance.choice([7, 8, 9])} {chance.choice(['', '', '', '@tcp'])}"
        address = chance.choice(world.ROOT + world.CORP)
        steps.append(chance.choice([
            f"ask {client} {some}", f"once {client} {some}", f"once {client} {some}", "version",
            f"wait {chance.choice([0.1, 0.5, 1.0])}", f"how serves {address}",
            f"how {chance.choice(['serves', 'silent', 'refuses'])} {address}",
            chance.choice(["restart 0 told", "restart 0.2", *[f"ask {some}"] * 4])]))
    settings = {"part": "", "version": "2", "routes": "DENYING", "ask_ms": "200",
                "tries": chance.choice("123"), "cache": chance.choice(["6", "4096"]),
                "stale_s": chance.choice(["0", "2", "600"]),
                "deadline_ms": chance.choice(["500", "8000"])}
    return Scene(name, "Names, servers and restarts by chance.", settings, steps)


def expanded(words):
    """Words with ranges written out: `[a-c].[0-2]0` are nine."""
    for word in words:
        parts = RANGE.split(word)
        ranges = [
            [chr(code) for code in range(ord(first), ord(last) + 1)] if first.isalpha()
            else [str(number) for number in range(int(first), int(last) + 1)]
            for first, last in zip(parts[1::3], parts[2::3])]
        for chosen in itertools.product(*ranges):
            texts = itertools.zip_longest(parts[0::3], chosen, fillvalue="")
            yield "".join(itertools.chain(*texts))


def asked_how(words):
    """The names, and the arguments for `Clients.start` that words with @ are."""
    how, pause = {}, 0.0
    for word in [word[1:] for word in words if word.startswith("@")]:
        if word.isdigit():
            how["address"] = f"10.0.0.{word}"
        elif word == "tcp":
            how["tcp"] = True
        elif word != "guests":
            pause = float(word.split("-")[1])
    return list(expanded(word for word in words if not word.startswith("@"))), how, pause


class Trial:
    """A running scene, and the options for the explainer."""

    def __init__(self, scene, place):
        self.scene, self.world, self.known = scene, place, scenes()
        self.servers, self.clients = NameServers(), Clients()
        self.waiting, self.threads, self.options, self.restarts = [], [], [], []
        self.second_service = (world.OTHER, 53)

    def play(self, steps):
        for step in steps:
            verb, *words = step.split()
            getattr(self, f"do_{verb}")(*words)

    def do_like(self, *names):
        for name in names:
            self.play(self.known[name].steps)

    def do_ask(self, *words):
        names, how, _ = asked_how(words)
        for name in names:
            to = self.second_service if "@guests" in words else (world.MACHINE, 53)
            self.clients.end(self.clients.start(name, to=to, **how))

    def do_start(self, *words):
        names, how, pause = asked_how(words)
        for name in names:
            self.waiting.append(self.clients.start(name, **how))
            time.sleep(pause)

    def do_end(self):
        for asked in self.waiting:
            self.clients.end(asked)
        self.waiting = []

    def do_once(self, *words):
        self.do_start(*words)
        self.do_end()

    def do_both(self, *words):
        names, how, _ = asked_how(words)
        for index, name in enumerate(names):
            services = [(world.MACHINE, 53), self.second_service]
            for to in services[::-1] if index % 2 else services:
                self.waiting.append(self.clients.start(name, to=to, **how))
        self.do_end()

    def do_second(self, name):
        """Another question from the socket of the last."""
        self.clients.end(self.clients.start(name, over=self.clients.asked[-1]), 0.5)

    def do_again(self):
        last = self.clients.asked[-1]
        self.clients.end(self.clients.start(f"{last.name}/{last.kind}", over=last), 0.3)

    def do_leave(self):
        for asked in self.waiting:
            asked.stream.setsockopt(socket.SOL_SOCKET, socket.SO_LINGER, struct.pack("ii", 1, 0))
            asked.stream.close()
            asked.stream = socket.socket(socket.AF_INET, asked.stream.type)
        self.waiting = []

    def do_odd(self):
        """Messages that are no question, without one, too short, and empty."""
        with socket.socket(socket.AF_INET, socket.SOCK_DGRAM) as odd:
            odd.connect((world.MACHINE, 53))
            for octets in ODD:
                odd.send(octets)
                time.sleep(0.02)

    def do_wait(self, seconds):
        time.sleep(float(seconds))

    def do_how(self, how, *addresses):
        self.servers.how.update(dict.fromkeys(addresses, how))

    def do_version(self):
        self.servers.version += 1

    def do_close(self, *addresses):
        for address in addresses:
            self.servers.close(address)

    def do_open(self, *words):
        for address in [word for word in words if word != "@udp"]:
            self.servers.begin(address, "@udp" not in words)
            self.servers.how[address] = "serves"

    def do_guests(self, listen):
        address, port = listen.split(":")
        self.second_service = (address, int(port))
        self.world.start(world.configuration(listen=listen), "guests")

    def do_restart_guests(self, gap):
        text = world.configuration(listen="%s:%d" % self.second_service)
        self.world.restart(text, "guests", float(gap))

    def do_pause(self, seconds):
        """Stops the process of the service for a while."""
        pid = self.world.services["forwarder"].pid
        children = pathlib.Path(f"/proc/{pid}/task/{pid}/children").read_text().split()
        os.kill(int((children or [pid])[0]), signal.SIGSTOP)
        time.sleep(float(seconds))
        os.kill(int((children or [pid])[0]), signal.SIGCONT)

    def do_restart(self, gap, told=None):
        ended = self.world.restart(self.scene.text, gap=float(gap))
        self.restarts.append(ended)
        if told:
            self.options += ["--restarted", f"{ended:.3f}"]

    def do_later(self, seconds, *step):
        thread = threading.Timer(float(seconds), lambda: self.play([" ".join(step)]))
        thread.start()
        self.threads.append(thread)

    def do_load(self, seconds):
        """Asks for eight names again and again, and for new names, by UDP and over TCP."""
        end, number = time.monotonic() + float(seconds), 0
        while time.monotonic() < end:
            name = "abcdefgh"[number % 8] if number % 3 else f"slow-60.m{number}"
            self.do_start(f"@{number % 3 + 7}", "@pause-0.01", f"{name}.example",
                          *(["@tcp"] if number % 10 == 9 else []))
            number += 1
        for asked in self.waiting:
            self.clients.end(asked, 0.5)
        self.waiting = []

    def do_library(self, *words):
        """Has the C library ask the first server on the machine itself."""
        path = self.world.folder / "resolv.conf"
        path.write_text("nameserver 192.0.2.1\noptions timeout:1 attempts:1\n")
        line = f"mount --bind {path} /etc/resolv.conf && exec getent ahostsv4 "
        for name in expanded(words):
            self.world.others.append(self.world.run("sh", "-c", line + name, stdout=-3))

    def do_dnsmasq(self):
        self.world.others.append(self.world.run(
            "dnsmasq", "-k", "-p", "53", "-a", world.OTHER, "-z", "-R", "-h", "-S", "192.0.2.1",
            "-C", "/dev/null", "-u", "root", "-x", "", stderr=-3))
        time.sleep(0.5)

    def do_capture(self):
        settings = self.scene.settings
        self.world.capture(self.world.folder / "seen.pcap", settings.get("interface", "eth0"),
                           [word for word in settings.get("filter", "").split(",") if word])

    def do_stop(self):
        self.world.end_captures()

    def run(self):
        """Plays the whole scene; returns the truth."""
        if "running" not in self.scene.settings:
            self.do_capture()
        if "strace" in self.scene.settings:
            self.world.before = ["strace", "-f", "-o", "/dev/null", "-e", "trace=connect", "-e",
                                 f"inject={self.scene.settings['strace']}"]
        self.world.start(self.scene.text)
        self.play(self.scene.steps)
        for thread in self.threads:
            thread.join()
        self.do_stop()
        if not self.servers.is_alive():
            raise RuntimeError("the name servers failed")
        self.servers.ended = True
        return {"about": self.scene.about, "whole": "part" not in self.scene.settings, "steps": [],
                "options": self.options, "restarts": self.restarts,
                "questions": self.clients.rows((world.MACHINE, 53))}

"""A machine with the service, and a network of clients and name servers: two network namespaces.

The machine has 10.0.0.53 and 10.0.0.54, the network all other addresses. Nothing else runs in
either, so a capture of the machine has the packets of the trial alone."""
import contextlib
import ctypes
import os
import pathlib
import signal
import socket
import subprocess
import time

MACHINE, OTHER = "10.0.0.53", "10.0.0.54"
CLIENTS = ["10.0.0.7", "10.0.0.8", "10.0.0.9"]
ROOT, CORP = ["192.0.2.1", "192.0.2.2"], ["192.0.2.9", "192.0.2.10"]
PROHIBITED, UNREACHABLE, CLOSED, OFF = "203.0.113.5", "203.0.113.6", "192.0.2.66", "10.0.0.99"
ROUTES = {".": ROOT, "corp.example": CORP}
DENYING = {**ROUTES, "lan": [], "printers.lan": CORP, "no.corp.example": []}
REFUSING = {".": [CLOSED, ROOT[0]], "corp.example": [PROHIBITED, UNREACHABLE, CLOSED],
            "off.example": [OFF]}
ONE = {"corp.example": CORP}
FOR_EVER = str(2**64 - 1)
NEW_NETWORK = 0x40000000  # CLONE_NEWNET of setns(2)
PATIENCE = 20  # seconds for the start of a program


def configuration(version=1, listen=f"{MACHINE}:53", routes=None, **limits):
    """The text of a configuration; a route without servers denies."""
    limits = {"tries": 3, "ask_ms": 300, **limits}
    lines = [f"version = {version}", f'listen = "{listen}"', "[limits]"]
    lines += [f"{key} = {value}" for key, value in limits.items()]
    for suffix, servers in (routes or ROUTES).items():
        names = ", ".join(f'"{server}:53"' for server in servers)
        lines += ["[[route]]", f'suffix = "{suffix}"',
                  f"servers = [{names}]" if servers else "deny = true"]
    return "\n".join(lines) + "\n"


def shell(*words, **how):
    subprocess.run(words, stdout=subprocess.DEVNULL, **{"check": True, **how})


def enter(descriptor):
    """Moves this thread, with its later children, into a network namespace."""
    if ctypes.CDLL(None, use_errno=True).setns(descriptor, NEW_NETWORK):
        raise OSError(ctypes.get_errno(), "setns")


class World:
    """The two namespaces, and the programs that run in them."""

    def __init__(self, folder, program):
        self.folder, self.program = pathlib.Path(folder), program
        self.machine, self.network = (f"trial{os.getpid()}{end}" for end in "mn")
        self.services, self.captures, self.others = {}, [], []
        self.before = []  # words before the program's, as of strace
        self.home = os.open("/proc/self/ns/net", os.O_RDONLY)

    def __enter__(self):
        try:
            self.build()
        except BaseException:
            self.remove()
            raise
        descriptor = os.open(f"/run/netns/{self.network}", os.O_RDONLY)
        enter(descriptor)
        os.close(descriptor)
        return self

    def build(self):
        for name in (self.machine, self.network):
            shell("ip", "netns", "add", name)
            shell("ip", "netns", "exec", name, "sysctl", "-q", "net.ipv6.conf.all.disable_ipv6=1",
                  "net.ipv6.conf.default.disable_ipv6=1", "net.ipv4.ip_forward=1")
        shell("ip", "link", "add", "eth0", "netns", self.machine, "type", "veth",
              "peer", "name", "eth0", "netns", self.network)
        own = {self.machine: [MACHINE, OTHER],
               self.network: ["10.0.0.1", *CLIENTS, *ROOT, *CORP, CLOSED]}
        for name, addresses in own.items():
            for words in [("link", "set", "lo", "up"), ("link", "set", "eth0", "up"),
                          *[("address", "add", f"{each}/24", "dev", "eth0") for each in addresses]]:
                shell("ip", "-n", name, *words)
        shell("ip", "-n", self.machine, "route", "add", "default", "via", "10.0.0.1")
        for kind, address in (("prohibit", PROHIBITED), ("unreachable", UNREACHABLE)):
            shell("ip", "-n", self.network, "route", "add", kind, address)

    def __exit__(self, *_):
        for process in [*self.services.values(), *self.others, *self.captures]:
            with contextlib.suppress(ProcessLookupError):
                os.killpg(process.pid, signal.SIGKILL)  # with all children
            process.wait()
        enter(self.home)
        os.close(self.home)
        self.remove()

    def remove(self):
        for name in (self.machine, self.network):
            shell("ip", "netns", "del", name, check=False, stderr=subprocess.DEVNULL)

    def run(self, *words, **how):
        """Starts a program on the machine."""
        words = ["ip", "netns", "exec", self.machine, *words]
        return subprocess.Popen(words, start_new_session=True, **how)

    def start(self, text, name="forwarder"):
        """Starts a forwarder with this configuration, and waits for its sockets."""
        path = self.folder / f"{name}.toml"
        path.write_text(text)
        process = self.run(*self.before, self.program, "serve", path, FOR_EVER,
                           stdout=subprocess.DEVNULL)
        self.services[name] = process
        address, port = text.split('listen = "')[1].split('"')[0].split(":")
        packed = int.from_bytes(socket.inet_aton(address), "little")
        entry, end = f" {packed:08X}:{int(port):04X} ", time.monotonic() + PATIENCE
        while any(entry not in pathlib.Path(f"/proc/{process.pid}/net/{kind}").read_text()
                  for kind in ("udp", "tcp")):
            if time.monotonic() > end or process.poll() is not None:
                raise TimeoutError(f"{name} does not begin")
            time.sleep(0.01)

    def restart(self, text, name="forwarder", gap=0.0):
        """Ends a forwarder and starts it again after a gap; returns the time of its end."""
        process = self.services.pop(name)
        process.send_signal(signal.SIGTERM)
        process.wait()
        ended = time.time()
        time.sleep(gap)
        self.start(text, name)
        return ended

    def capture(self, path, interface="eth0", words=()):
        """Starts tcpdump on the machine, and waits for its beginning."""
        process = self.run("tcpdump", "-Z", "root", "-U", "--immediate-mode", "-B", "65536", "-i",
                           interface, "-w", path, *words, stderr=subprocess.PIPE, text=True)
        self.captures.append(process)
        while "listening on" not in process.stderr.readline():
            if process.poll() is not None:
                raise OSError(f"tcpdump ended: {words}")

    def end_captures(self):
        """Ends the captures; none may have lost a packet."""
        time.sleep(0.3)
        for process in self.captures:
            process.send_signal(signal.SIGINT)
            report = "\n" + process.communicate()[1]
            if "\n0 packets dropped by kernel" not in report:
                raise OSError(f"tcpdump: {report}")
        self.captures = []

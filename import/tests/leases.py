"""Leases of a real dnsmasq by the output of forwarder-import, as a client meets them.

Two network namespaces are an office: the machine of the forwarder and of the kept dnsmasq, and a
client. udhcpc gets an address; names are asked at the name server of the lease."""
import os
import pathlib
import subprocess
import tempfile

from running import programs
from running.trying import until

NEEDED = ("ip", "sed", "dnsmasq", "udhcpc", "dig")
SCRIPT = """#!/bin/sh
if [ "$1" = bound ]; then
    ip address add "$ip/$mask" dev "$interface"
    echo "$ip" "$dns" > "$(dirname "$0")/lease"
fi
"""


def missing():
    """The missing things for a lease; empty if none is missing."""
    return ", ".join([*(["root"] if os.geteuid() else []), *programs.missing(*NEEDED)])


class Office:
    """The two namespaces, in a folder for their files."""

    def __init__(self, folder):
        self.folder = folder
        self.server, self.client = (f"{each}{os.getpid()}" for each in ("server", "client"))

    def __enter__(self):
        for name in (self.server, self.client):
            programs.output("ip", "netns", "add", name)
        link = ("link", "add", "eth0", "netns", self.server, "type", "veth")
        programs.output("ip", *link, "peer", "name", "eth0", "netns", self.client)
        for name in (self.server, self.client):
            for each in ("lo", "eth0"):
                self.run(name, "ip", "link", "set", each, "up")
        self.run(self.server, "ip", "address", "add", "10.0.0.53/24", "dev", "eth0")
        return self

    def __exit__(self, *_):
        for name in (self.server, self.client):
            programs.output("ip", "netns", "del", name)

    def run(self, name, *words, wanted=(0,)):
        """Runs a command in a namespace. Returns standard output."""
        command = ["ip", "netns", "exec", name, *words]
        ran = subprocess.run(command, capture_output=True, text=True, timeout=60)
        if ran.returncode not in wanted:
            raise AssertionError(f"{' '.join(words)}: {ran.stdout}{ran.stderr}")
        return ran.stdout

    def served(self, *words):
        """A server in the namespace of servers, until the end of the block."""
        command = ["ip", "netns", "exec", self.server, *words]
        return programs.Program(command, log=self.folder / "log")

    def lease(self):
        """Address and name servers of a lease for the host `desk`."""
        script = self.folder / "script"
        script.write_text(SCRIPT)
        script.chmod(0o755)
        words = ("-i", "eth0", "-f", "-q", "-n", "-t", "10", "-x", "hostname:desk")
        self.run(self.client, "udhcpc", *words, "-s", script)
        return (self.folder / "lease").read_text().split()

    def asked(self, server, *words):
        """Status and data of an answer, once the server is there."""
        command = ("dig", f"@{server}", "+time=3", "+tries=1", *words)

        def text():
            met = self.run(self.client, *command, wanted=(0, 9))  # 9: no reply
            return "status: " in met and met

        met = until(text, 10, f"no answer from {server}", 0.25)
        answer = met.partition("ANSWER SECTION:\n")[2].partition("\n\n")[0]
        return met.partition("status: ")[2].partition(",")[0], answer.split()[-1:]


def leased(program, text):
    """Name server of a lease, and answers of the forwarder to the client, by a printed text."""
    with tempfile.TemporaryDirectory() as name, Office(pathlib.Path(name)) as office:
        path, kept = office.folder / "forwarder.toml", office.folder / "dnsmasq.conf"
        path.write_text(text)
        kept.write_bytes(subprocess.check_output(["sed", "-n", "s/^#: //p", path]))
        options = ["--keep-in-foreground", "--user=root", "--pid-file=", f"--conf-file={kept}"]
        options.append(f"--dhcp-leasefile={office.folder / 'leases'}")
        serve = [program, "serve", path, programs.WHOLE_LIFE]
        with office.served("dnsmasq", *options), office.served(*serve):
            address, *servers = office.lease()
            answers = {question: office.asked(*servers[:1], *question.split())
                       for question in ("desk.lan", "nobody.lan", "printer.lan", f"-x {address}")}
            return address, servers, answers

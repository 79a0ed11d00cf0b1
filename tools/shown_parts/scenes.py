"""What has to be there before a page's first command, or before a single command."""
import datetime
import pathlib
import signal
import struct
import subprocess

from .machine import COMPANY, OUTSIDE
from .pages import TOP

ETC = pathlib.Path("/etc/forwarder")
RING = pathlib.Path("/var/lib/forwarder-capture")
NAMED = "options { forwarders { 198.51.100.53; }; };\n"
DNSMASQ = "no-resolv\nlisten-address=10.0.0.53\nserver=198.51.100.53\n"
ASKED = "dig @10.0.0.53 www.example.com"


def shell(text):
    subprocess.run(["bash", "-c", text], check=True, capture_output=True)


def guide():
    """The configuration of docs/ADMIN.md's first steps."""
    page = (TOP / "docs" / "ADMIN.md").read_text(encoding="utf-8")
    block = page.partition("```toml\n")[2].partition("```")[0]
    return "".join(line.removeprefix("   ") for line in block.splitlines(keepends=True))


def served(_office):
    """The service of the guide runs, and there are files that commands name."""
    (ETC / "forwarder.toml").write_text(guide())
    (ETC / "guests.toml").write_text(guide().replace("10.0.0.53", "10.0.0.54"))
    pathlib.Path("my.toml").write_text(guide().replace("10.0.0.53:53", "127.0.0.1:5300"))
    pathlib.Path("old/etc/bind").mkdir(parents=True)
    pathlib.Path("old/etc/bind/named.conf").write_text(NAMED)
    shell("systemctl enable --now forwarder")


def unserved(_office):
    """Files of services that the page comes upon; the forwarder is still to be configured."""
    (ETC / "guests.toml").write_text(guide().replace("10.0.0.53", "10.0.0.54"))
    pathlib.Path("/etc/dnsmasq.d").mkdir(exist_ok=True)
    pathlib.Path("/etc/dnsmasq.conf").write_text(DNSMASQ)
    for folder in ("/etc/sysctl.d", "/etc/keepalived", "/etc/systemd/resolved.conf.d"):
        pathlib.Path(folder).mkdir(parents=True, exist_ok=True)


def captured(_office):
    """A capture with a question, as seen.pcap and in the ring."""
    RING.mkdir(parents=True, exist_ok=True)
    if not (RING / "seen.pcap3").exists():
        for older in RING.iterdir():
            older.unlink()
        words = ["tcpdump", "-U", "-i", "any", "-w", "/tmp/seen.pcap", "port 53 or icmp"]
        with subprocess.Popen(words, stderr=subprocess.PIPE, text=True) as capture:
            next(line for line in capture.stderr if "listening on" in line)
            shell(ASKED)
            shell("for _ in {1..50}; do tcpdump -r /tmp/seen.pcap dst port 53 | grep -q . && break; "
                  "sleep 0.1; done")
            capture.send_signal(signal.SIGINT)
        shell(f"cp /tmp/seen.pcap {RING}/seen.pcap3; cp /tmp/seen.pcap seen.pcap")


def morning(office):
    """The ring's only capture is from ten o'clock."""
    captured(office)
    capture = RING / "seen.pcap3"
    octets = bytearray(capture.read_bytes())
    ten = int(datetime.datetime.now().replace(hour=10, minute=0, second=0).timestamp())
    at, first = 24, struct.unpack_from("<I", octets, 24)[0]
    while at + 16 <= len(octets):
        seconds, _, size = struct.unpack_from("<3I", octets, at)
        struct.pack_into("<I", octets, at, ten + seconds - first)
        at += 16 + size
    (RING / "seen.pcap4").write_bytes(octets)
    capture.unlink()


def company_down(office):
    office.stop(COMPANY)


def lan_denied(_office):
    """`lan` is denied for one question, as the text in front of it says."""
    text = (ETC / "forwarder.toml").read_text().replace("version = 1", "version = 2")
    text += '\n[[route]]\nsuffix = "lan"\ndeny = true\n'
    (ETC / "forwarder.toml").write_text(text)
    shell("systemctl restart forwarder")


def unwise(office):
    """A cache above the unit's memory, and a silent server."""
    limits = "[limits]\ncache = 32768"
    (ETC / "forwarder.toml").write_text(guide().replace("[limits]", limits))
    office.stop(OUTSIDE[1:])
    office.start(OUTSIDE[1:], silent=True)


def names_of_a_day(_office):
    """Names that are also asked of the old program: port 5300 is still the forwarder's."""
    pathlib.Path("names").write_text("www.example.com A\ngone.corp.example A\n")


def listening(_office):
    """A reader types slower than the program starts."""
    shell("for _ in {1..50}; do ss -lnu | grep -q ':5300 ' && break; sleep 0.1; done")


def new_package(_office):
    shell("cp /tmp/pavelimoan_*.deb pavelimoan_NEW.deb")
    (ETC / "forwarder.toml").write_text(guide())  # after the way back
    shell("systemctl stop dnsmasq; systemctl restart forwarder")


def empty_cache(_office):
    shell("systemctl restart forwarder")

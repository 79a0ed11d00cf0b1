"""Captures made from stored ones: clocks set, restarts told, packets cut, tagged or doubled."""
import json
import random

import dns.message

import packets

SERVICE = "10.0.0.53:53"
STEPS = [sign * seconds for seconds in (1, 10, 300, 3600) for sign in (1, -1)]
TOLD = {  # the time of --restarted: seconds from the restart, the begin or the end of a capture
    "told": ("quiet_restart", "restart", 0), "told_early": ("quiet_restart", "restart", -0.4),
    "told_late": ("quiet_restart", "restart", 0.4), "told_before": ("quiet_restart", "begin", -60),
    "told_at_the_end": ("quiet_restart", "end", 0.002),
    "told_soon_after": ("quiet_restart", "end", 0.8),
    "told_long_after": ("quiet_restart", "end", 3600),
    "busy_told_early": ("restart_told", "restart", -0.6),
    "busy_told_late": ("restart_told", "restart", 0.6),
}


def moments(captured):
    """Where the clock is set: after the longest quiet, and with most questions open."""
    waiting, quiet, busy = set(), (0, 0), (0, 0)
    for index, packet in enumerate(captured):
        if not waiting and index > len(captured) // 4:
            quiet = max(quiet, (packet.time - captured[index - 1].time, index))
        if packet.is_datagram:
            sender, receiver = packet.ends
            if receiver == SERVICE:
                waiting.add((sender, packet.message[:2]))
            elif sender == SERVICE:
                waiting.discard((receiver, packet.message[:2]))
        busy = max(busy, (len(waiting), index + 1))
    return quiet[1], busy[1]


def tagged(captured):
    """Each packet has an 802.1Q tag."""
    for packet in captured:
        packet.head = packet.head[:12] + b"\x81\x00\x00\x0a" + packet.head[12:]
    return captured


def doubled(captured):
    """Each packet comes twice, as on two interfaces."""
    return [packets.Packet(packet.time + later, packet.head, packet.ip)
            for packet in captured for later in (0, 3)]


def disordered(captured):
    """Packets of two processors: some are stored after their next one."""
    chosen = random.Random(1)
    for index in range(1, len(captured) - 1, 2):
        if captured[index + 1].time - captured[index].time < 2000 and chosen.random() < 0.4:
            captured[index:index + 2] = captured[index + 1], captured[index]
    return captured


def written_anew(captured):
    """Answers by UDP with equal content, as another program compresses it."""
    return [packet.copy(message=dns.message.from_wire(packet.message).to_wire(want_shuffle=False))
            if packet.is_datagram and packet.ends[0] == SERVICE else packet for packet in captured]


def short(captured):
    """The first 100 octets of each packet."""
    for packet in captured:
        packet.limit = 100
    return captured


def part(first, last=None):
    """The packets from a first to a last, as shares of the whole."""
    return lambda captured: captured[int(first * len(captured)):int((last or 1) * len(captured))]


CHANGES = {  # the new capture: its source, the change, and whether all packets are in it
    "vlan": ("plain", tagged, True),
    "vlan_chains": ("chains", tagged, True),
    "doubled": ("plain", doubled, True),
    "doubled_chains": ("chains", doubled, True),
    "disordered": ("hundreds", disordered, True),
    "disordered_forgeries": ("forgeries", disordered, True),
    "written_anew": ("denials", written_anew, True),
    "written_anew_chains": ("chains", written_anew, True),
    "short": ("types", short, False),
    "without_the_begin": ("silent", part(0.3), False),
    "without_the_end": ("hundreds", part(0, 0.25), False),
    "middle_of_chains": ("chains", part(0.3, 0.7), False),
    "middle_of_stale": ("stale", part(0.45, 0.9), False),
    "middle_of_deny": ("deny", part(0.3), False),
    "middle_of_restart": ("restart_told", part(0.2), False),
    "middle_of_two": ("two_forwarders", part(0.4), False),
}


class Source:
    """The stored captures, and the folder for those made from them."""

    def __init__(self, stored, folder):
        self.stored, self.folder = stored, folder

    def truth(self, name):
        return json.loads((self.stored / f"{name}.json").read_text())

    def keep(self, name, base, change, **truth):
        """Writes a changed capture, with its configuration and its truth."""
        link, captured = packets.read(self.stored / f"{base}.pcap")
        packets.write(self.folder / f"{name}.pcap", link, change(captured))
        (self.folder / f"{name}.toml").write_text((self.stored / f"{base}.toml").read_text())
        (self.folder / f"{name}.json").write_text(json.dumps({**self.truth(base), **truth}))

    def set_clock(self, name, *steps):
        def change(captured):
            for index, seconds in steps:
                for packet in captured[index:]:
                    packet.time += seconds * 1000000
            return captured
        self.keep(f"clock_{name}", "clock", change, steps=[seconds for _, seconds in steps])

    def make(self):
        for name, (base, change, whole) in CHANGES.items():
            self.keep(name, base, change, whole=whole)
        quiet, busy = moments(packets.read(self.stored / "clock.pcap")[1])
        for seconds in STEPS:
            self.set_clock(f"quiet_{seconds}", (quiet, seconds))
            self.set_clock(f"busy_{seconds}", (busy, seconds))
        self.set_clock("there_and_back", (quiet, 3600), (busy, -3600))
        self.set_clock("back_and_there", (quiet, -40), (busy, 40))
        for name, (base, place, seconds) in TOLD.items():
            captured = packets.read(self.stored / f"{base}.pcap")[1]
            places = {"restart": self.truth(base)["restarts"][0],
                      "begin": captured[0].time / 1000000, "end": captured[-1].time / 1000000}
            options = ["--restarted", f"{places[place] + seconds:.3f}"]
            self.keep(name, base, list, options=options)

"""Captures with packets left out: each single one, and pairs by a fixed seed.

No answer may be different for such a loss, if the capture counts lost packets. A fault has to stay a fault without
further packets, if the capture counts none."""
import itertools
import random
import struct

from making import Capturing, block

PAIRS = 60  # of a capture
# Of captures with a fault the packets that show the fault: question, answer, data used, and
# moments.
FAULTS = {
    "two_seconds_more": {1, 2, 4, 5},
    "two_seconds_less": {1, 2, 4, 6, 7},
    "past_its_end": {1, 4, 5},
    "another_route": {0, 1, 3},
    "forgotten_alias": {0, 3},
    "joined_unequal": {2, 5},
    "short_answers": {14, 15},
    "a_server_asks": {0, 1, 2, 4, 5},
    "forged_reply_used": {0, 2, 3},
    "forged_next_to_losses": {0, 2},
    "failed_and_told": {0, 1, 2, 3, 4, 5},
    "lifetimes_of_no_moment": {0, 1, 2},
    "old_cache_after_a_restart": {1, 2, 5, 6, 7},
    "denied_although_served": {1, 4, 5},
    "records_too_many_and_too_few": set(),
    "codes_changed": set(),
}


def packets_of(capture):
    """The head of a capture, and the packets, with headers."""
    packets, at = [], 24
    if capture[:4] == b"\xd4\xc3\xb2\xa1":
        while at + 16 <= len(capture):
            size = 16 + struct.unpack_from("<I", capture, at + 8)[0]
            packets.append(capture[at : at + size])
            at += size
        return capture[:24], packets
    at = 0
    while at < len(capture):
        size = struct.unpack_from(">I", capture, at + 4)[0]
        packets.append(capture[at : at + size])
        at += size
    return b"".join(packets[:2]), packets[2:]


def without(capture, places):
    """A capture without the packets of these places."""
    head, packets = packets_of(capture)
    return head + b"".join(packet for place, packet in enumerate(packets) if place not in places)


def losses_of(name, capture):
    """The places of the packets that are left out of a capture, time after time."""
    count = len(packets_of(capture)[1])
    if count > 200:
        return []
    pairs = list(itertools.combinations(range(count), 2))
    chosen = random.Random(name).sample(pairs, min(PAIRS, len(pairs)))
    return [(place,) for place in range(count)] + chosen


def counted(capture):
    """A capture as pcapng that counts two lost packets."""
    if capture[:4] != b"\xd4\xc3\xb2\xa1":
        return capture + Capturing.statistics(0, 100, (2, 0))
    head, packets = packets_of(capture)
    link = struct.unpack_from("<I", head, 20)[0]
    parts = [block(0x0A0D0D0A, struct.pack(">I2Hq", 0x1A2B3C4D, 1, 0, -1)), block(1, struct.pack(">2HI", link, 0, 0))]
    for packet in packets:
        seconds, micros, kept, size = struct.unpack_from("<4I", packet)
        time = 1_000_000 * seconds + micros
        if len(packet) < 16 + kept:
            break
        body = struct.pack(">5I", 0, time >> 32, time & 0xFFFFFFFF, kept, size) + packet[16:]
        parts.append(block(6, body + bytes(-kept % 4)))
    return b"".join(parts) + Capturing.statistics(0, 100, (2, 0))

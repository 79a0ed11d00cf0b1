"""Captures with octets and packets changed at random, by a fixed seed."""
import random
import struct


def changed(octets, seed):
    """A capture with some changes."""
    chance = random.Random(seed)
    changes = (octets_changed, octets_changed, octets_changed, packets_moved, part_left_out, cut)
    for _ in range(chance.choice((1, 1, 2, 4))):
        octets = chance.choice(changes)(octets, chance)
    return octets


def octets_changed(octets, chance):
    changed_ = bytearray(octets)
    for _ in range(chance.choice((1, 2, 8))):
        if changed_:
            changed_[chance.randrange(len(changed_))] = chance.choice((0, 1, 12, 63, 192, 255, chance.randrange(256)))
    return bytes(changed_)


def part_left_out(octets, chance):
    at = chance.randrange(len(octets) + 1)
    return octets[:at] + chance.randbytes(chance.randrange(9)) + octets[at + chance.randrange(9) :]


def cut(octets, chance):
    return octets[: chance.randrange(len(octets) + 1)]


def packets_moved(octets, chance):
    """Packets of a classic capture are left out, doubled or moved, and their times are changed."""
    packets, at = [], 24
    while octets[:4] == b"\xd4\xc3\xb2\xa1" and at + 16 <= len(octets):
        size = struct.unpack_from("<I", octets, at + 8)[0]
        packets.append(octets[at : at + 16 + size])
        at += 16 + size
    if not packets:
        return octets
    for _ in range(chance.choice((1, 2, 5))):
        place = chance.randrange(len(packets))
        packet = packets[place]
        what = chance.randrange(4)
        if what == 0 and len(packets) > 1:
            del packets[place]
        elif what == 1:
            packets.insert(chance.randrange(len(packets) + 1), packet)
        elif what == 2:
            packets[place] = struct.pack("<I", chance.randrange(1 << 32)) + packet[4:]
        else:
            microseconds = struct.pack("<I", chance.randrange(1_000_000))
            packets[place] = packet[:4] + microseconds + packet[8:]
    return octets[:24] + b"".join(packets)

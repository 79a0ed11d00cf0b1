"""Writes a capture again, with the times of a faster clock: times.py CAPTURE TARGET BEGAN SPEED

A packet's time after BEGAN, in nanoseconds since 1970, is multiplied by SPEED. Packets that came
together stay together: they keep their distances from the first. Otherwise the work of microseconds
would seem to take tenths of a second, and packets taken in turn would seem to be far apart. So a
packet is early by LONGEST at most.
"""
import struct
import sys

SECOND = 1_000_000_000  # nanoseconds
NANOSECONDS = 0xA1B23C4D  # the first word of a capture with such times
HEAD, RECORD = 24, struct.Struct("<4I")
TOGETHER = 400_000  # nanoseconds of the system between two packets that came together
LONGEST = 900_000_000  # nanoseconds of the faster clock, from the first of them to the last


class NoCapture(Exception):
    """A file that is no capture with nanoseconds, in the order of this machine."""


def records(source):
    """Each packet of a capture: time in nanoseconds, length, and the kept octets."""
    while len(record := source.read(RECORD.size)) == RECORD.size:
        seconds, rest, kept, length = RECORD.unpack(record)
        yield seconds * SECOND + rest, length, source.read(kept)


def multiplied(source, target, began, speed):
    """Writes each packet at its time."""
    head = source.read(HEAD)
    if len(head) < HEAD or struct.unpack_from("<I", head)[0] != NANOSECONDS:
        raise NoCapture(source.name)
    target.write(head)
    first = last = 0
    for moment, length, octets in records(source):
        if moment - last > TOGETHER or (moment - first) * speed > LONGEST:
            first = moment
        last = moment
        moment = began + (first - began) * speed + moment - first
        target.write(RECORD.pack(*divmod(moment, SECOND), len(octets), length) + octets)


def main(capture, target, began, speed):
    with open(capture, "rb") as source, open(target, "wb") as file:
        multiplied(source, file, int(began), int(speed))


if __name__ == "__main__":
    main(*sys.argv[1:])

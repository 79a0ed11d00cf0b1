"""Addresses, suffixes and zones, from foreign words to words of forwarder.toml(5)."""
import ipaddress
import re

from .files import Refused
from .rows import Row

# The zones of RFC 6303, section 4: names of private, local and documentation addresses.
LOCAL_ZONES = (
    "10.in-addr.arpa", *(f"{octet}.172.in-addr.arpa" for octet in range(16, 32)),
    "168.192.in-addr.arpa", "0.in-addr.arpa", "127.in-addr.arpa", "254.169.in-addr.arpa",
    "2.0.192.in-addr.arpa", "100.51.198.in-addr.arpa", "113.0.203.in-addr.arpa",
    "255.255.255.255.in-addr.arpa", "0." * 32 + "ip6.arpa", "1." + "0." * 31 + "ip6.arpa",
    "d.f.ip6.arpa", *(f"{digit}.e.f.ip6.arpa" for digit in "89ab"), "8.b.d.0.1.0.0.2.ip6.arpa")

# RFC 6598: addresses with 64 zones, as many as a configuration has routes.
OF_SHARED = "of 100.64.0.0/10 by itself: here they are asked, since they need 64 routes"

PRIVATE_ZONES = LOCAL_ZONES[:18]  # of RFC 1918

LISTEN = "write this machine's in `listen`"
OVER_TLS = "write a route to a program on this machine that asks it over TLS"
ENCRYPTED = f"NOT IN PLAIN: queries to it are encrypted there, and would not be here: {OVER_TLS}"
PORT_OF_TLS = 853  # RFC 7858, section 3.1
UNITS = {unit: seconds  # by the words of a unit
         for seconds, units in ((1, "s sec second seconds"), (60, "m min minute minutes"),
                                (3600, "h hr hour hours"), (86400, "d day days"),
                                (604800, "w week weeks")) for unit in units.split()}


def keep(program):
    """The advice on a line of a program without a counterpart."""
    return (
        f"if you need the line, keep {program} at another address, and write a route to {program}")


def port_of(text):
    if not re.fullmatch("[0-9]{1,9}", text) or not 1 <= int(text) <= 65535:
        raise Refused(f"{text or 'nothing'} is no port from 1 to 65535")
    return int(text)


def ipv4_of(text, row=Row.LISTENING):
    """An IPv4 address; `row` is for a name in its place."""
    try:
        address = ipaddress.ip_address(text)
    except ValueError:
        if not re.fullmatch(r"(?=.*[A-Za-z])[A-Za-z0-9._-]+", text):
            raise Refused(f"{text or 'nothing'} is no address") from None
        raise Refused(f"{text} is no address: write the IPv4 address that it has", row) from None
    if address.version == 6:
        raise Refused(f"{text} is an address of IPv6: write an IPv4 address of the same machine",
                      Row.IPV6)
    return str(address)


def cut(text, mark):
    """The address in `ADDRESS`, the mark, and a port, and the port: 53 without a mark."""
    address, found, port = text.partition(mark)
    return address, port if found else "53"


def peer_of(address, port="53", is_encrypted=False):
    """A server, as `ADDRESS:PORT`."""
    if is_encrypted:
        raise Refused(ENCRYPTED)
    peer = f"{ipv4_of(address, Row.NAMED)}:{port_of(port)}"
    met = ipaddress.ip_address(address)
    if met.is_unspecified or met.is_multicast or address == "255.255.255.255":
        raise Refused(f"{address} is the address of no server")
    if int(port) == PORT_OF_TLS:
        raise Refused(
            f"NOT IN PLAIN: port {PORT_OF_TLS} is for encrypted queries alone: {OVER_TLS}")
    return peer


def suffix_of(text):
    """A suffix, without the final dot."""
    if text == ".":
        return text
    name = text.removesuffix(".")
    labels = name.split(".")
    for label in labels:
        if not label:
            raise Refused("a label is empty, so it is no suffix")
        found = re.search(r"[^A-Za-z0-9_-]", label)
        if found:
            raise Refused(bad_character(found.group(), label))
        if len(label) > 63:
            raise Refused("a label has more than 63 characters, so it is no suffix")
    if sum(len(label) + 1 for label in labels) + 1 > 255:
        raise Refused("the name has more than 255 octets, so it is no suffix")
    return name


def bad_character(character, label):
    """The advice on a character no suffix has."""
    if character == "*":
        return (
            "a suffix is for whole labels, with all names below it: write it without the asterisk")
    if not character.isascii():
        return f"the label {label} is not ASCII: write the suffix in its form that begins with xn--"
    return f"a suffix can't have the character '{character}'"


def seconds_of(text):
    """A time span, as 600, 1h, 10min or 1d 6h."""
    pieces = re.findall(r"([0-9]+)\s*([a-z]*)\s*", text.lower())
    if not pieces or "".join(map("".join, pieces)) != re.sub(r"\s", "", text.lower()):
        raise Refused(f"{text or 'nothing'} is no time")
    if any((unit or "s") not in UNITS for _, unit in pieces):
        raise Refused(f"{text} has a unit that is not known here: write it in seconds")
    return sum(int(number[:9]) * UNITS[unit or "s"] for number, unit in pieces)


def key_of(suffix):
    """Equal for suffixes the program takes as equal."""
    return suffix.lower()


def keys_above(key):
    """The names above a name, the nearest first, as keys."""
    while key != ".":
        key = key.partition(".")[2] or "."
        yield key


def nearest(by_key, name):
    """The value of a name, or of the nearest name above; none if there is none."""
    key = key_of(name)
    return next((by_key[each] for each in (key, *keys_above(key)) if each in by_key), None)


def reverse_zones(text):
    """The zones of a network, as 10.0.0.0/8, or of an address without a length."""
    try:
        network = ipaddress.ip_network(text, strict=False)
    except ValueError:
        raise Refused(f"{text or 'nothing'} is no network") from None
    if network.prefixlen == 0:
        raise Refused(
            "write the suffix in-addr.arpa or ip6.arpa: a network of all addresses has no zone")
    bits = 8 if network.version == 4 else 4
    aligned = -(-network.prefixlen // bits) * bits
    return [zone_of(each, aligned // bits) for each in network.subnets(new_prefix=aligned)]


def zone_of(network, count):
    """The zone of a network, with `count` labels."""
    labels = network.network_address.reverse_pointer.split(".")
    return ".".join(labels[-2 - count:])

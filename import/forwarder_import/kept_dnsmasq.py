"""The dnsmasq kept for DHCP at another port, with the names of leases.

Only at port 53 does dnsmasq name itself in leases. So the kept file names the forwarder."""
import functools
import ipaddress
import itertools

from .files import Refused, shown
from .found import Route, Value
from .names import nearest, reverse_zones, suffix_of
from .rows import Row

ADDRESS, FIRST_PORT = "127.0.0.1", 5300
LONGEST_LINE = 1000  # characters of a line of the kept file
MOST_LOCAL = 8  # domains without servers: more are a list of unwanted names
# Options of the kept file besides DHCP and records.
STAYS = {"listen-address", "interface", "except-interface", "no-dhcp-interface", "domain"}
STAYS |= {"bind-interfaces", "bind-dynamic", "no-hosts"}
WITHOUT_LEASES = {"proxy", "ra-only", "ra-stateless"}  # words of a range
NAME_SERVER, NAME_SERVER_OF_6 = ("option:dns-server", "6"), ("option6:dns-server", "option6:23")
OF_RECORDS = "write a route to a name server that has these names"


class KeptDnsmasq:
    """Gathers the lines for DHCP and for own records."""

    def __init__(self, found):
        self.found = found
        self.file, self.dhcp = [], []  # lines of the kept file in order, and lines of DHCP
        self.leases, self.starts = [], []  # lines of ranges, and their first addresses
        self.ranges, self.domains = [], []  # zones and domains of leases, with lines
        self.local = []  # domains without servers, with lines
        self.named = []  # name servers of leases, with lines
        self.serves, self.has_listen, self.names_server = True, False, False

    def stay(self, name, value, line):
        """Notes a line for the kept file."""
        if (name, value) != ("except-interface", "lo"):
            self.file.append(line)
        self.has_listen = self.has_listen or name == "listen-address"
        if name == "domain":
            self.domains.append((value.split(",")[0].strip(), line))

    def take(self, name, value, line):
        self.file.append(line)
        self.dhcp.append(line)
        words = [word.strip() for word in value.split(",")]
        if name == "dhcp-range" and ("ra-names" in words or not WITHOUT_LEASES & {*words}):
            self.leases.append(line)
            addresses = [each for each in map(address_or_none, words) if each and int(each)]
            self.starts += map(str, addresses[:1])
            self.ranges += [(zone_of_range(*addresses), line)] if addresses else []
        if name in ("dhcp-option", "dhcp-option-force"):
            self.option(words, line)

    def option(self, words, line):
        """Takes an option of leases: the name server counts. 0.0.0.0 is dnsmasq's own machine."""
        rest = [word for word in words if not word.startswith("tag:")]
        if rest and rest[0] in NAME_SERVER:
            self.names_server = self.names_server or rest == words
            self.named += [(word, line) for word in rest[1:] if word != "0.0.0.0"]
        if rest and rest[0] in NAME_SERVER_OF_6:
            what = "leases name servers of IPv6, which clients ask instead: leave the line out"
            self.found.leave(line, what, Row.IPV6)

    @functools.cached_property
    def peer(self):
        """Address and port, the first port in no other use."""
        servers = (text for route in self.found.routes.values() for text in route.servers)
        taken = {text.partition(":")[2] for text in servers if text.startswith("127.")}
        taken |= {str(port) for _, port, *_ in self.found.addresses}
        taken |= {self.found.port.text} if self.found.port else set()
        ports = map(str, itertools.count(FIRST_PORT))
        return f"{ADDRESS}:{next(port for port in ports if port not in taken)}"

    def is_asked(self):
        """Whether leases have names, and the old dnsmasq answered for them."""
        return bool(self.leases) and self.serves

    def settle(self, listen):
        """Routes the zones of leases to the kept dnsmasq, with advice on each line."""
        option = f"`dhcp-option=option:dns-server,{address_of(listen)}`"
        if not self.leases:
            what = "keep a dnsmasq with `port=0` for it"
        elif not self.serves:
            what = f"keep this dnsmasq as it is, with {option}"
        else:
            zones = self.zones()
            asked = [text for zone in zones for text in self.asked(zone)]
            for route in [self.route(zone, line) for zone, line in zones.items()]:
                self.found.routes[route.suffix.lower()] = route
            self.found.kept = [*self.head(option), *asked, *self.rest()]
            what = (f"keep dnsmasq for it, at {self.peer} with {option}: its file is in the printed"
                    " text")
        for line in self.dhcp:
            self.found.leave(line, what, Row.DHCP)
        for address, line in self.named:
            if address != address_of(listen):
                what = f"leases name {address}: write the address of `listen` instead"
                self.found.leave(line, what, Row.DHCP)
        if not self.found.kept:
            for _, line in self.domains:
                self.found.record((), line, Refused(OF_RECORDS, Row.RECORDS))

    def zones(self):
        """The zones of the kept dnsmasq, with lines: domains of leases, zones of their addresses,
        and domains without servers, answered from own data."""
        zones = {}
        for domain, line in self.domains:
            with self.found.refusing(line):
                if domain == "#":
                    raise Refused("write the domain of /etc/resolv.conf in place of #", Row.DHCP)
                zones.setdefault(suffix_of(domain).lower(), line)
        if not zones:
            what = "without `domain` leases have names of one label, which are asked like others: "
            what += f"write a domain into dnsmasq's file, and a route from it to {self.peer}"
            self.found.leave(self.leases[0], what, Row.DHCP)
        local = self.local if len(self.local) <= MOST_LOCAL else []
        for zone, line in [*self.ranges, *local]:
            zones.setdefault(zone.lower(), line)
        return zones

    def asked(self, zone):
        """The lines for the kept dnsmasq to ask the servers of a zone's route, or to deny."""
        route = nearest(self.found.routes, zone)
        servers = route.servers if route else ()
        asked = [f"server=/{zone}/{text.replace(':', '#')}" for text in servers]
        return asked or [f"local=/{zone}/"]

    def route(self, zone, line):
        """The route of a zone to the kept dnsmasq, with the lines of the route before."""
        before = self.found.routes.get(zone)
        lines = dict.fromkeys([line, *(before.lines() if before else ())])
        kept = Value("", list(lines), "the dnsmasq that is kept for DHCP")
        return Route(zone, servers={self.peer: kept})

    def head(self, option):
        """The new lines of the kept file."""
        yield f"port={self.peer.partition(':')[2]}"
        if self.has_listen:
            yield f"listen-address={ADDRESS}"
        yield "no-resolv"
        if not self.names_server:
            yield option.strip("`")

    def rest(self):
        """The old lines of the kept file."""
        return [shown(line.text, LONGEST_LINE) for line in self.file]


def address_or_none(text):
    """An address; none for another word."""
    try:
        return ipaddress.ip_address(text)
    except ValueError:
        return None


def zone_of_range(start, *rest):
    """The smallest zone of whole octets with the range, or with the network of the mask; of IPv6
    the zone of the link's 64 bits."""
    if start.version == 6:
        return reverse_zones(f"{start}/64")[0]
    masks = [each for each in rest if str(each).startswith("255.")]
    if masks:
        length = ipaddress.ip_network(f"{start}/{masks[0]}", strict=False).prefixlen
    else:
        length = 32 - (int(start) ^ int((rest or [start])[0])).bit_length()
    return reverse_zones(f"{start}/{min(24, max(8, length // 8 * 8))}")[0]


def address_of(listen):
    """The address for clients, or 0.0.0.0: dnsmasq writes the machine's address."""
    address = listen.text.partition(":")[0]
    return "0.0.0.0" if address.startswith("127.") else address

"""Decides about all findings, for a configuration the program accepts."""
import collections
import ipaddress

from .files import Refused
from .found import Many, Route, Value
from .names import key_of, keys_above, nearest, reverse_zones
from .rows import Row

MOST_ROUTES, MOST_SERVERS = 64, 8
MANY_ROUTES = 16  # of a line: a network of 20 bits has 16 zones
HERE, ALL = "127.0.0.1", "0.0.0.0"
PRIVATE = [  # networks of RFC 1918, with the length of each zone's network
    (length, ipaddress.ip_network(text))
    for length, text in ((8, "10.0.0.0/8"), (16, "172.16.0.0/12"), (16, "192.168.0.0/16"))
]


def settle(found):
    """Decides about all, and leaves the rest. Returns `listen` and the routes in order."""
    listen = listen_of(found)
    if "." in found.routes:
        keep_most(found.routes["."], listen)
    standard(found)
    for route in found.routes.values():
        keep_most(route, listen)
    local(found)
    for route in list(found.routes.values()):
        one_of_two(route, found)
    if found.kept_dnsmasq:
        found.kept_dnsmasq.settle(listen)
    routes = ordered(found)
    found.many = many_of(routes, found, listen)
    records(routes, found)
    return listen, routes


def listen_of(found):
    """The first address within reach of machines, otherwise the first; others are left."""
    port = found.port or Value("53", [])
    if not found.addresses:
        return Value(f"{HERE}:{port.text}", port.lines,
                     "" if port.lines else "no line has an address")
    chosen = next((each for each in found.addresses if not each[0].startswith("127.")),
                  found.addresses[0])
    address, own, line, remark = chosen
    for each in found.addresses:
        if each is not chosen and each[:2] == chosen[:2]:
            found.pass_over(each[2], "`listen` has the address")
        elif each is not chosen:
            found.leave(each[2], "a second address: give it a service and a file of its own",
                        Row.LISTENING)
    for other in port.lines if own else ():
        found.pass_over(other, "the address has a port of its own")
    if address == ALL:
        remark = "one address is better: see `listen` in forwarder.toml(5)"
    lines = [line] if own else [line, *port.lines]
    return Value(f"{address}:{own or port.text}", lines, remark)


def standard(found):
    """Gives routes the servers of all names where a line wants them."""
    root = found.routes.get(".")
    for route in found.routes.values():
        for line in route.standard:
            if root is None or not root.servers:
                found.leave(line, f"no server for all names is there, so {route.suffix} gets none")
                continue
            for text, server in root.servers.items():
                route.servers.setdefault(text, Value("", [], server.remark)).lines.append(line)


def keep_most(route, listen):
    """Takes out the forwarder itself, and servers past the limit."""
    address, _, port = listen.text.partition(":")
    for text in list(route.servers):
        other, _, its_port = text.partition(":")
        is_here = other == address or (address == ALL and other.startswith("127."))
        if is_here and port == its_port:
            lose(route, text, "is this forwarder itself")
    for text in list(route.servers)[MOST_SERVERS:]:
        lose(route, text, f"is past the {MOST_SERVERS} servers of a route")


def lose(route, text, why):
    """Takes a server out of a route."""
    route.lost += [(line, Refused(f"{text} {why}")) for line in route.servers.pop(text).lines]


def local(found):
    """Denies local zones, unless their names are below a suffix with servers."""
    for own in found.local:
        near = [found.routes[key] for key in (own.zone, *keys_above(own.zone))
                if key != "." and key in found.routes]
        if not any(route.servers or route.lost for route in near):
            found.deny(own.zone, own.line, own.of_denial)
        for server in near[0].servers.values() if near else ():
            server.remark = server.remark or own.of_server


def one_of_two(route, found):
    """A route has servers or denies. A route without usable servers denies, so no server of a
    shorter suffix gets its names; the route for all names is dropped instead."""
    if route.denied:
        denied = "without another route" if route.suffix == "." else f"below {route.suffix}"
        then = f"names {denied} are denied{route.because}"
        for line in route.named:
            found.leave(line, then)
        for text in list(route.servers):
            lose(route, text, "is not asked")
        then = f"; {then}"
    elif route.servers:
        then = ""
    elif route.suffix == ".":
        del found.routes["."]
        for line in route.named:
            found.leave(line, "no server of it can be asked")
        then = "; until then names without another route are refused"
    else:
        route.denied, route.remark = route.lines(), "no server of it can be asked"
        then = f"; until then names below {route.suffix} are denied"
    for line, refused in route.lost:
        found.leave(line, refused.what + then, refused.row)


def ordered(found):
    """The routes: for all names first, of a line with many routes last. Past the limit denials are
    left first, then routes of lost servers."""
    counts = collections.Counter(line for each in found.routes.values() for line in each.lines())

    def place(route):
        return route.suffix != ".", min(map(counts.get, route.lines()), default=0) > MANY_ROUTES

    def importance(route):
        rank = 0 if route.servers else 1 if route.lost else 2
        return route.suffix != ".", rank, place(route)

    ranked = sorted(found.routes.values(), key=importance)
    leave_past(ranked[MOST_ROUTES:], counts, found)
    kept = {route.suffix for route in ranked[:MOST_ROUTES]}
    routes = sorted((route for route in found.routes.values() if route.suffix in kept), key=place)
    if not routes:
        found.leave(found.first, "no line names a server that can be asked: write a route `.`")
        found.placeholder = True
        routes = [Route("invalid")]
    return routes


def many_of(routes, found, listen):
    """The local zones of a line with many, that of the office's private network first."""
    many = []
    for line in dict.fromkeys(own.line for own in found.local):
        group = [route for route in routes if route.lines() == [line]]
        if len(group) <= MANY_ROUTES:
            continue
        starts = found.kept_dnsmasq.starts if found.kept_dnsmasq else []
        servers = (each for route in routes for each in route.servers)
        zone, network = private_zone([*starts, listen.text, *servers])
        own = next((route for route in group if route.suffix == zone), None)
        if own:
            routes.remove(own)
            routes.insert(min(routes.index(route) for route in group if route is not own), own)
        many.append(Many((own or group[0]).suffix, line, len(group), network if own else ""))
    return many


def private_zone(peers):
    """The zone and the network of the first private address."""
    for peer in peers:
        address = ipaddress.ip_address(peer.partition(":")[0])
        for length, block in PRIVATE:
            if address in block:
                network = ipaddress.ip_network(f"{address}/{length}", strict=False)
                return reverse_zones(str(network))[0], str(network)
    return "", ""


def records(routes, found):
    """Leaves own records, with their names below a denied suffix."""
    by_key = {key_of(route.suffix): route for route in routes}
    peer = found.kept_dnsmasq.peer if found.kept else ""
    for names, line, refused in found.records:
        carried = {name: nearest(by_key, name) for name in names}
        if found.kept and all(route and peer in route.servers for route in carried.values()):
            found.pass_over(line, "the dnsmasq that is kept for DHCP has it")
            continue
        what = f"write a route to {peer}: the kept dnsmasq has it" if found.kept else refused.what
        denied = [name for name, route in carried.items() if route and not route.servers]
        if denied:
            what += f"; until then {', '.join(denied)} {'is' if len(denied) == 1 else 'are'} denied"
        found.leave(line, what, refused.row)


def leave_past(routes, counts, found):
    """Leaves the lines of routes past the limit, by name if a line also has kept routes."""
    past = collections.Counter(line for route in routes for line in route.lines())
    for route in routes:
        for line in route.lines():
            all_alike = "the suffix" if counts[line] == 1 else "each suffix"
            which = all_alike if past[line] == counts[line] else route.suffix
            what = (f"{which} is past the {MOST_ROUTES} routes of a configuration: join some at a"
                    " shorter suffix")
            found.leave(line, what)

"""Rules about accepted but unwise values, each with a better value."""
import re

from .configuration import shown_peer
from .names import PRIVATE_ZONES

PATIENCE_MS = 5000  # after which the C library's resolver asks elsewhere, or gives up
# 7,000 record sets of 60 KB were held within 512 MiB.
SETS, WITHIN = 7000, 512 * 2**20
ALL = []


def advice(function):
    """Adds a function: given a configuration and its unit, it yields lines of advice."""
    ALL.append(function)
    return function


@advice
def no_route_for_all(configuration, _):
    """Names without a route are refused."""
    if "." not in configuration.by_key:
        yield 'no route is for all names: write one with `suffix = "."`, or all others are refused'


@advice
def the_own_address(configuration, _):
    """A forwarder among its own servers."""
    address, port = configuration.listen
    for route in configuration.routes:
        for server in dict.fromkeys(route.servers):
            is_here = server[0] == address or (int(address) == 0 and server[0].is_loopback)
            if is_here and server[1] == port:
                yield (f"{of(route)}: {shown_peer(server)} is this forwarder itself: write another"
                       " server")


@advice
def a_server_twice(configuration, _):
    """A server asked twice in a route, although another might reply."""
    for route in configuration.routes:
        for server in dict.fromkeys(route.servers):
            if route.servers.count(server) > 1:
                yield (f"{of(route)}: {shown_peer(server)} is there twice: write another server, or"
                       " none")


@advice
def a_deadline_before_one_try(configuration, _):
    """A question whose deadline comes before the first server had `ask_ms`."""
    ask, deadline = (configuration.limits[key] for key in ("ask_ms", "deadline_ms"))
    if deadline < ask:
        yield (f"`deadline_ms` ({deadline}) is below `ask_ms` ({ask}), so no server has its time: "
               f"write `ask_ms = {max(100, deadline // 2)}`")


@advice
def tries_past_the_deadline(configuration, _):
    """Tries beyond the deadline are never made."""
    tries, ask, deadline = times(configuration)
    if ask <= deadline < tries * ask:
        yield (f"`tries` times `ask_ms` ({tries * ask}) is above `deadline_ms` ({deadline}), so the"
               " last tries are never made, and `stale_s` is never used: write `tries ="
               f" {deadline // ask}`")


@advice
def tries_past_the_patience_of_clients(configuration, _):
    """Answers after clients have given up."""
    tries, ask, deadline = times(configuration)
    is_late = min(tries * ask, deadline) > PATIENCE_MS
    if is_late and any(route.servers for route in configuration.routes):
        fewer = min(tries, max(1, PATIENCE_MS // ask))
        better = (f"`tries = {fewer}`"
                  if ask <= PATIENCE_MS else f"`ask_ms = {PATIENCE_MS // tries}`")
        yield (f"`tries` times `ask_ms` ({tries * ask}) is above the {PATIENCE_MS} ms after which"
               f" clients give up: write {better}")


@advice
def a_cache_past_the_memory(configuration, unit):
    """A cache whose large record sets make the kernel end the process."""
    cache, memory = configuration.limits["cache"], unit.octets()
    most = SETS * memory // WITHIN if memory else cache
    if cache > most:
        yield (f"`cache` ({cache}) may need more than the unit's `MemoryMax={unit.memory}`, since a"
               f" set may have 64 KiB: write `cache = {max(1, most)}`, or a larger `MemoryMax`")


@advice
def no_name_reaches_it(configuration, _):
    """A suffix no name ends in."""
    for route in configuration.routes:
        labels = route.suffix.lower().split(".")
        if labels[-1].isdigit():
            octets = [each for each in labels if each != "0"] or ["0"]
            zone = zone_of(octets if is_private(octets) else octets[::-1])
            fault = f"no name ends in the label {labels[-1]}"
            yield f"{of(route)}: {fault}: for addresses write `{zone}`"
        elif labels[-2:] == ["in-addr", "arpa"] and (right := turned(labels[:-2])):
            yield f"{of(route)}: the octets of an address are turned round: write `{right}`"
        elif labels[-2:] == ["in-addr", "arpa"] and not is_address(labels[:-2]):
            yield f"{of(route)}: no address has these octets: write four of at most 255, or less"
        elif labels[-2:] == ["ip6", "arpa"] and not is_address_of_6(labels[:-2]):
            fault = "an address of IPv6 has 32 digits, each a label"
            yield f"{of(route)}: {fault}: write these, or less"


@advice
def repeats_the_one_above(configuration, _):
    """A route equal to the route of the next shorter suffix."""
    for route in configuration.routes:
        above = configuration.above(route)
        if above and above.servers == route.servers:
            does = "asks the same servers as" if route.servers else "denies like"
            yield f"{of(route)}: it {does} that of `{above.suffix}`: leave it out"


@advice
def only_this_machine_is_served(configuration, unit):
    """A loopback address, while a comment or a unit speaks of a network."""
    address, port = configuration.listen
    if not address.is_loopback:
        return
    spoken = [f"{path} with {network}" for network, path in unit.networks]
    spoken += [f"the comment `{text}`" for text in configuration.comments if NETWORK.search(text)]
    if spoken:
        yield (
            f"`listen` at {address} serves this machine alone, but {spoken[-1]} is of a network: "
            f"write this machine's address there, as `10.0.0.53:{port}`")


NETWORK = re.compile(r"(?<![\w./-])(networks?|clients|offices?|LAN)(?![\w/-]|\.\w)", re.I)


def of(route):
    """The words for a route."""
    return f"route `{route.suffix}`"


def times(configuration):
    """Tries, and the milliseconds of a try and of a question."""
    return (configuration.limits[key] for key in ("tries", "ask_ms", "deadline_ms"))


def is_address(labels):
    """Whether the labels are octets of an address; RFC 2317 allows further labels."""
    octets = [each for each in labels if each.isdigit()]
    return len(octets) <= 4 and all(str(int(each)) == each and int(each) < 256 for each in octets)


def is_address_of_6(labels):
    """Whether the labels are hexadecimal digits of an address."""
    return len(labels) <= 32 and all(re.fullmatch("[0-9a-f]", each) for each in labels)


def turned(labels):
    """The zone with the labels turned round, if only this order names a private network."""
    is_turned = is_private(labels[::-1]) and not is_private(labels)
    return zone_of(labels[::-1]) if is_turned and is_address(labels) else ""


def zone_of(labels):
    """The zone of addresses with these labels in front."""
    return ".".join([*labels, "in-addr.arpa"])


def is_private(labels):
    """Whether the zone of labels is of a private network."""
    return any(f".{zone_of(labels)}".endswith(f".{zone}") for zone in PRIVATE_ZONES)


def advised(configuration, unit):
    return [line for function in ALL for line in function(configuration, unit)]

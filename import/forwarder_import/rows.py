"""The rows of the table 'In dnsmasq, in unbound, here' of docs/ADMIN.md, for texts to cite."""
import enum

TABLE = "In dnsmasq, in unbound, here"


class Row(enum.Enum):
    """The first cell of a row."""

    NAMED = "A server by name"
    PROVIDED = "Servers from DHCP or the access provider"
    ORDER = "Which server is asked"
    LISTENING = "Listening"
    WHO = "Who may ask"
    CACHE = "Size of the cache"
    OPEN = "Open queries"
    TIME = "Time for a server"
    ITERATING = "Iterating from the root"
    RECORDS = "Own records, `/etc/hosts`"
    DHCP = "DHCP, TFTP"
    SPECIAL = "Special names (`localhost`, `invalid`, `onion`, ..)"
    REBINDING = "Protection from rebinding (private addresses from outside)"
    STALE = "Expired answers when servers are silent"
    TTL = "Shortest and longest TTL"
    EDNS = "EDNS, large answers by UDP"
    DNSSEC = "DNSSEC"
    IPV6 = "IPv6"
    LOG = "Log of questions"
    STATISTICS = "Statistics"
    RELOAD = "Reload"

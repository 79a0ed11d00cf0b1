"""Queries by UDP and TCP to each server of a configuration."""
from concurrent.futures import ThreadPoolExecutor

import dns.exception
import dns.flags
import dns.message
import dns.query
import dns.rcode
import dns.rdatatype

from .configuration import shown_peer

SECONDS, AT_ONCE = 2, 16
FINE = ("NOERROR", "NXDOMAIN")


def asked(configuration):
    """Asks all servers. Returns a line for each server, and whether all is well."""
    pairs = dict.fromkeys((route.suffix, server) for route in configuration.routes
                          for server in route.servers)
    with ThreadPoolExecutor(AT_ONCE) as pool:
        return list(pool.map(lambda pair: of_server(*pair), pairs))


def of_server(suffix, server):
    """Asks a server for the SOA record of a route's suffix, as a client would."""
    query = dns.message.make_query(suffix, dns.rdatatype.SOA)
    came = [came_by(call, query, server) for call in (dns.query.udp, dns.query.tcp)]
    line = f"route `{suffix}`: {shown_peer(server)}: by UDP {came[0]}, by TCP {came[1]}"
    if all(each in FINE for each in came):
        return line, True
    return f"{line}: {remedy(came)}", False


def came_by(call, query, server):
    """Sends a query. Returns the status of the reply, or the reason for no reply."""
    address, port = server
    try:
        reply = call(query, str(address), timeout=SECONDS, port=port)
    except dns.exception.Timeout:
        return f"nothing in {SECONDS} s"
    except OSError as fault:
        return f"`{fault.strerror or fault}`"
    except (dns.exception.DNSException, EOFError) as fault:
        return f"no reply that fits ({type(fault).__name__})"
    is_referral = reply.authority and not reply.answer and not reply.flags & dns.flags.AA
    if is_referral and all(each.rdtype == dns.rdatatype.NS for each in reply.authority):
        return "a referral"
    return dns.rcode.to_text(reply.rcode())


def remedy(came):
    """The advice on a server."""
    if "a referral" in came:
        return "write a server of the zone itself"
    if any(each.isupper() and each not in FINE for each in came):
        return "have the server serve this machine and these names, or write another"
    if came[0] in FINE:
        return "let TCP through to its port, since large answers need it"
    return "have packet filters let it through, or write another server"

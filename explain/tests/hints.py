"""Tests of remarks on configuration and options, in a folder for each run."""
import pathlib
import tempfile

import jobs
from making import asked
from office import FORWARDER, OFFICE, ONE, OTHER, QUERY, REPLY, Scene
from repository.packing import address, message


def explained(program, settings, capture, *options):
    """Standard output, standard error and status of a run."""
    with tempfile.TemporaryDirectory() as folder:
        (pathlib.Path(folder) / "office.toml").write_text(settings)
        (pathlib.Path(folder) / "seen.pcap").write_bytes(capture)
        return jobs.ran(folder, program, *options, "office.toml", "seen.pcap")


def a_port_that_the_filter_lacks(program):
    """The filter has port 53 alone. The reply of a server at port 5353 is cached, expires, and is asked for again: the
    answers are open. A forged answer of the second route stays different."""
    scene, name, www = Scene(), asked("db.corp.example"), asked("www.example.com")
    scene.fetched(0, OTHER, 1, www, 300, (192, 0, 2, 80))
    for at, number, left in ((1000, 2, 60), (2000, 3, 59), (90000, 4, 60)):
        scene.told(at, at + 10, ONE, number, name, answers=[address(left, 10, 0, 0, 71)])
    settings = OFFICE.replace("10.0.0.10:53", "10.0.0.10:5353")
    printed, said, status = explained(program, settings, scene.pcap())
    yield "open", (printed.splitlines()[-2], status), ("3 open: no packet of its servers' port is in the capture", 0)
    yield "hint", said, "forwarder-explain: seen.pcap: no packet of port 5353, which the configuration names\n"
    scene.told(91000, 91000.2, ONE, 5, www, answers=[address(209, 192, 0, 2, 66)])
    yield "forged", explained(program, settings, scene.pcap())[2], 1


def any_address(program):
    """The service listens at all addresses of its machine: each address asked by clients is the service's. An answer
    from another address than was asked is different, and no client takes it."""
    scene, www = Scene(), asked("www.example.com")
    scene.fetched(0, ONE, 1, www, 300, (192, 0, 2, 80))
    query, found = message(2, QUERY, www), [address(295, 192, 0, 2, 80)]
    for at, sender in ((5000, "172.16.0.1:53"), (5500, "10.0.0.53:53")):
        scene.udp(at, OTHER, "172.16.0.1:53", query)
        scene.udp(at + 0.2, sender, OTHER, message(2, REPLY, www, found))
    settings = OFFICE.replace("10.0.0.53:53", "0.0.0.0:53")
    printed, said, status = explained(program, settings, scene.pcap())
    lines = printed.splitlines()
    yield "lines", (len([line for line in lines if " udp www." in line]), said, status), (3, "", 1)
    wanted = "    DIFFERENT: it came from 10.0.0.53, which was not asked"
    yield "different", [line for line in lines if "DIFFERENT" in line], [wanted]


def configurations_that_fit_nothing(program):
    """No packet is of a port or of an address of the configuration: a remark says so."""
    scene = Scene()
    scene.fetched(0, OTHER, 1, asked("www.example.com"), 300, (192, 0, 2, 80))
    settings = OFFICE.replace("10.0.0.53:53", "10.9.9.9:53").replace("192.0.2.", "198.51.100.")
    printed, said, status = explained(program, settings, scene.pcap())
    wanted = "forwarder-explain: seen.pcap: has no question to 10.9.9.9:53, where the configuration listens\n"
    yield "status", (printed, said, status), ("", wanted, 2)


def no_port_is_missing(program):
    """A capture without a packet of any port of the configuration: the configuration has another address or port."""
    scene = Scene()
    scene.fetched(0, OTHER, 1, asked("www.example.com"), 300, (192, 0, 2, 80))
    yield "53", explained(program, OFFICE, scene.pcap())[1], ""
    settings = OFFICE.replace(FORWARDER, "10.0.0.53:5300")
    missing = "forwarder-explain: seen.pcap: no packet of port 5300, which the configuration names"
    side = "forwarder-explain: seen.pcap: captured on the servers' side alone"
    yield "5300", explained(program, settings, scene.pcap())[1].splitlines(), [missing, side]


def wrong_clients(program):
    """Only IPv4 addresses are accepted, with or without a port."""
    scene = Scene()
    scene.fetched(0, OTHER, 1, asked("www.example.com"), 300, (192, 0, 2, 80))
    for client in ("foo", "10.0.0", "10.0.0.08", "10.0.0.256", "10.0.0.8:", "10.0.0.8:x", "10.0.0.8:65536", "::1"):
        printed, said, status = explained(program, OFFICE, scene.pcap(), "--client", client)
        wanted = f"--client: {client} is no IPv4 address; 10.0.0.7 and 10.0.0.7:40000 are"
        yield client, (printed, said.splitlines()[-1], status), ("", f"forwarder-explain: error: {wanted}", 2)
    for client in ("10.0.0.8", OTHER):
        yield client, explained(program, OFFICE, scene.pcap(), "--client", client)[1:], ("", 0)

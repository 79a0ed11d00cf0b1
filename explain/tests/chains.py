"""Captures of aliases through the cache, of cut answers, of a failure next to an answer, and of wrong forms."""
from making import DENIAL, asked, octets
from office import CORPORATE, FIRST, FORWARDER, ONE, OTHER, REPLY, SECOND, Scene
from repository.packing import ANY, CNAME, NS, address, message, name, record

WEB, WWW = asked("web.example.com"), asked("www.example.com")
ALIAS = record(b"\xc0\x0c", CNAME, 300, b"\x03www\xc0\x10")  # of web.example.com to www.example.com


def target(seconds, last):
    return address(seconds, 192, 0, 2, last, owner=b"\xc0\x2d")


def nine_aliases():
    """An alias is cached, and the reply for its target has eight more: too many. Before, both tries for the target
    failed."""
    scene, names = Scene(), [f"a{number}.example.com" for number in range(10)]
    first, second = asked(names[0]), asked(names[1])
    links = [record(name(each), CNAME, 300, name(after)) for each, after in zip(names, names[1:])]
    scene.question(0, ONE, 1, first)
    scene.replied(0.2, 10.2, FIRST, first, answers=links[:1])
    for at, server in ((10.4, FIRST), (20.4, SECOND)):
        scene.replied(at, at + 9.8, server, second, 0x8185)
    scene.answer(31, ONE, 1, first, 0x8182)
    scene.question(5000, ONE, 2, first)
    scene.replied(5000.2, 5010.2, FIRST, second, answers=links[1:])
    scene.answer(5011, ONE, 2, first, 0x8182)
    return scene.pcap()


def circle_over_two_routes():
    """Aliases of two routes lead in a circle. A name is asked for again as its alias comes, before the alias is cached;
    a question meanwhile finds nine aliases. The query is silent, and sent again."""
    scene, web = Scene(), asked("web.corp.example")
    to_web, to_www = (record(b"\xc0\x0c", CNAME, 300, name(each)) for each in ("web.corp.example", "www.example.com"))
    scene.question(0, ONE, 1, WWW)
    scene.replied(0.2, 10.2, FIRST, WWW, answers=[to_web])
    scene.replied(10.4, 20.4, CORPORATE, web, answers=[to_www])
    scene.query(20.6, CORPORATE, web)
    scene.told(25, 25.2, OTHER, 2, WWW, 0x8182)
    scene.replied(1020.6, 1030.6, CORPORATE, web, answers=[to_www])
    scene.answer(1031, ONE, 1, WWW, 0x8182)
    return scene.pcap()


def other_data_after_an_alias():
    """A fault: a reply has an alias and an address at the target, and the answer has the alias and another address."""
    scene = Scene()
    scene.question(0, ONE, 1, WEB)
    scene.replied(0.2, 10.2, FIRST, WEB, answers=[ALIAS, target(60, 80)])
    scene.answer(11, ONE, 1, WEB, answers=[ALIAS, target(60, 66)])
    return scene.pcap()


def an_older_alias():
    """A fault: two replies have the aliases of web.example.com to app and to www. The answer with the second reply has
    the lifetime that the second alias would have by the first reply."""
    scene = Scene()
    first = record(b"\xc0\x0c", CNAME, 2, b"\x03app\xc0\x10")
    for at, left in ((0, 300), (3000, 297)):
        aliases = [record(b"\xc0\x2d", CNAME, seconds, b"\x03www\xc0\x10") for seconds in (300, left)]
        data = address(300, 192, 0, 2, 80, owner=b"\xc0\x3f")
        scene.question(at, ONE, 1, WEB)
        scene.replied(at + 0.2, at + 10.2, FIRST, WEB, answers=[first, aliases[0], data])
        scene.answer(at + 11, ONE, 1, WEB, answers=[first, aliases[1], data])
    return scene.pcap()


def a_cached_chain_fails():
    """A fault: alias and target are cached, and a question for them fails at once."""
    scene = Scene()
    scene.question(0, ONE, 1, WEB)
    scene.replied(0.2, 10.2, FIRST, WEB, answers=[ALIAS, target(60, 80)])
    scene.answer(11, ONE, 1, WEB, answers=[ALIAS, target(60, 80)])
    scene.told(5000, 5000.2, OTHER, 2, WEB, 0x8182)
    return scene.pcap()


def cut_answers():
    """An answer of 40 addresses is cut. Faults: an answer of one address is cut, and a denial by the configuration, and
    a cut answer denies a name with 40 addresses."""
    scene, many = Scene(), asked("many.example.com")
    scene.question(0, ONE, 1, many)
    scene.replied(0.2, 10.2, FIRST, many, answers=[address(300, 192, 0, 2, last) for last in range(40)])
    scene.answer(11, ONE, 1, many, 0x8380)
    scene.fetched(1000, ONE, 2, WWW, 300, (192, 0, 2, 80))
    for at, question, flags in ((2000, WWW, 0x8380), (3000, asked("printer.lan"), 0x8383), (4000, many, 0x8383)):
        scene.told(at, at + 0.2, OTHER, at, question, flags)
    return scene.pcap()


def failed_next_to_an_answer():
    """A fault: a reply is read late, when its try would be over. One of two questions for it fails, and the other gets
    its address: so it was taken."""
    scene = Scene()
    scene.question(0, ONE, 1, WWW)
    scene.replied(0.2, 10.2, FIRST, WWW, answers=[address(300, 192, 0, 2, 80)])
    scene.question(500, OTHER, 2, WWW)
    scene.answer(1500, ONE, 1, WWW, 0x8182)
    scene.answer(1500.1, OTHER, 2, WWW, answers=[address(300, 192, 0, 2, 80)])
    return scene.pcap()


def an_alias_has_just_expired():
    """The alias expired 390 ms before the question, so its name is asked, in vain. Its target is asked meanwhile, for
    another client: this reply is none to the first question, which gets the expired alias and the target in the end."""
    scene = Scene()
    alias = ALIAS.replace((300).to_bytes(4, "big"), (5).to_bytes(4, "big"))
    scene.question(0, ONE, 1, WEB)
    scene.replied(0.2, 10.2, FIRST, WEB, answers=[alias, target(1, 80)])
    scene.answer(11, ONE, 1, WEB, answers=[alias, target(1, 80)])
    scene.question(5400, ONE, 2, WEB)
    scene.query(5400.2, FIRST, WEB)
    scene.fetched(5600, OTHER, 3, WWW, 60, (192, 0, 2, 81))
    scene.query(6401.2, SECOND, WEB)
    # 60 - 1.792 s are left of the target.
    expired = ALIAS.replace((300).to_bytes(4, "big"), (30).to_bytes(4, "big"))
    scene.answer(7402.2, ONE, 2, WEB, answers=[expired, target(58, 81)])
    return scene.pcap()


def wrong_forms():
    """Faults: AA is set; two lifetimes in a set; a set and an authority section; an answer to another question; and an
    address for a type that is not served."""
    scene, found = Scene(), [address(299, 192, 0, 2, 80)]
    scene.fetched(0, ONE, 1, WWW, 300, (192, 0, 2, 80))
    scene.told(1000, 1000.2, ONE, 2, WWW, REPLY | 0x400, found)
    scene.told(1100, 1100.2, ONE, 3, WWW, REPLY, [*found, address(298, 192, 0, 2, 80)])
    scene.told(1200, 1200.2, ONE, 4, WWW, REPLY, found, [record(name("example.com"), NS, 60, name("ns.example.com"))])
    scene.question(1300, ONE, 5, WWW)
    scene.udp(1300.2, FORWARDER, ONE, message(5, REPLY, WEB, found))
    scene.told(1400, 1400.2, ONE, 6, asked("www.example.com", ANY), REPLY, found)
    return scene.pcap()


def replaced_data():
    """A fault: two replies have an alias of their own and an address of one target, and later the target has the first
    one, which the second replaced."""
    scene, other = Scene(), asked("app.example.com")
    for at, question, last in ((0, WEB, 80), (1000, other, 81)):
        scene.question(at, ONE, 1, question)
        scene.replied(at + 0.2, at + 10.2, FIRST, question, answers=[ALIAS, target(300, last)])
        scene.answer(at + 11, ONE, 1, question, answers=[ALIAS, target(300, last)])
    # 300 - 4.990 s are left of the first address, 300 - 3.990 s of the second.
    scene.told(5000, 5000.2, OTHER, 2, WWW, answers=[address(296, 192, 0, 2, 81)])
    scene.told(6000, 6000.2, OTHER, 3, WWW, answers=[address(294, 192, 0, 2, 80)])
    return scene.pcap()


def unequal_at_one_moment():
    """A fault: a name has an address, and later the name above is denied. Of two equal questions at one moment the
    first gets the address, as is right, and the second the denial."""
    scene, gone, below = Scene(), asked("gone.example.com"), asked("x.gone.example.com")
    scene.fetched(0, ONE, 1, below, 300, (192, 0, 2, 80))
    scene.question(1000, ONE, 2, gone)
    scene.replied(1000.2, 1010.2, FIRST, gone, 0x8583, authority=[octets(DENIAL)])
    scene.answer(1011, ONE, 2, gone, 0x8183, authority=[octets(DENIAL.replace("00000e10", "00000258"))])
    # 300 - 4.990 s are left of the address, 600 - 3.990 s of the denial.
    scene.told(5000, 5000.2, ONE, 3, below, answers=[address(295, 192, 0, 2, 80)])
    denial = [octets(DENIAL.replace("00000e10", "00000254"))]
    scene.told(5000.05, 5000.3, OTHER, 4, below, 0x8183, authority=denial)
    return scene.pcap()

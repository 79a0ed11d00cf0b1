"""A long capture: a thousand questions a second, most of them answered from the cache."""
from making import asked
from office import Scene
from repository.packing import address

NAMES, SECONDS = 2000, 300
OWN_PORTS = 60000


def many(count, each=1.0):
    """Questions, one each millisecond: the first for a name is asked, later questions are answered from the cache."""
    scene, known, number = Scene(), {}, 1
    for place in range(count):
        at = place * each
        number = (1103515245 * number + 12345) % 2147483648
        # Names that are asked often, and ever more rare names.
        rank = (number >> 8) % 100
        which = (number >> 16) % 50 if rank < 80 else 50 + (number >> 12) % NAMES
        question = asked(f"n{which}.example.com")
        client = f"10.0.{place % 5}.{1 + place % 200}:{1024 + place % OWN_PORTS}"
        identifier, numbers = place % 65536, (192, 0, 2, which % 256)
        accepted = known.get(which)
        if accepted is not None and at > accepted + 3 and at < accepted + 1000 * SECONDS - 3:
            left = (int(accepted) + 1000 * SECONDS - int(at)) // 1000
            scene.question(at, client, identifier, question)
            scene.answer(at + 0.1, client, identifier, question, answers=[address(left, *numbers)])
        elif accepted is None:
            scene.fetched(at, client, identifier, question, SECONDS, numbers)
            known[which] = at + 10.2
    return scene.pcap()

"""Tests of a service without a stop that is too slow: questions wait for longer and longer."""
from hints import explained
from making import asked
from office import FIRST, OFFICE, ONE, Scene
from repository.packing import address

EVERY, TAKES, COUNT, BACK = 2, 5, 500, 250  # milliseconds from question to question, and for each; how many
SETTINGS = OFFICE.replace("tries = 2\n", "tries = 2\ninquiries = 256\n")


def backlog(count, forged=None):
    """So many questions come soon after one another, and wait up to 1.5 s until each is read. From number 430 on each
    tenth question repeats the name from 250 questions before: the reply came after the question, and is cached when the
    service reads the question. An answer may be forged."""
    scene = Scene()
    for number in range(count):
        is_again = number >= 430 and number % 10 == 0
        name = asked(f"n{number - BACK if is_again else number}.example.com")
        scene.question(EVERY * number, ONE, number, name)
        at, left = TAKES * number + 0.2, 300
        if is_again:
            left = 298  # the reply was read 250 * 5 ms before
        else:
            port = scene.query(at, FIRST, name)
            scene.reply(at + 1, FIRST, port, name, answers=[address(300, 192, 0, 2, 80)])
        last = 66 if number == forged else 80
        scene.answer(at + 2, ONE, number, name, answers=[address(left, 192, 0, 2, last)])
    return scene.pcap()


def questions_wait_long(program):
    """No answer differs, also if a question waited for as long as a try takes, and if more questions had come and were
    not answered than the service has room for."""
    for count in (280, COUNT):
        printed, _, status = explained(program, SETTINGS, backlog(count), "--summary")
        verdict = next(line for line in printed.splitlines() if line.startswith(f"{count} questions"))
        yield count, (verdict.rpartition(", ")[2], status), ("0 different", 0)


def a_fault_stays_one(program):
    for forged in (350, 400, 440, 499):
        printed, _, status = explained(program, SETTINGS, backlog(COUNT, forged), "--summary")
        yield forged, (printed.count("DIFFERENT:"), status), (1, 1)

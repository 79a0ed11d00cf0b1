"""Shared by tests of the commands: failures, and runs of a command."""
import os
import pathlib
import subprocess
import tempfile

from running.forwarder import checked

HERE = pathlib.Path(__file__).resolve().parent.parent
NAME = "forwarder-import: "
TESTS = []


def test(function):
    TESTS.append(function)
    return function


class Failed(Exception):
    """A result is not the wanted result."""


def expect(met, wanted):
    if met != wanted:
        raise Failed(f"\n{met}\n  in place of\n{wanted}")


def imported(program, folder, *words):
    """Standard output, standard error and status of a run in a folder. The program has to accept
    the output, and the status has to fit."""
    environment = {**os.environ, "LC_ALL": "C.UTF-8"}
    command = [HERE / "forwarder-import", *words]
    ran = subprocess.run(command, cwd=folder, env=environment, capture_output=True, text=True)
    if ran.returncode == 2:
        expect((ran.stdout, ran.stderr.count("\n")), ("", 1))
    else:
        accept(program, ran.stdout)
        expect(ran.returncode, 1 if "left out: " in ran.stderr else 0)
    if any(not line.startswith(NAME) for line in ran.stderr.splitlines()):
        raise Failed(ran.stderr)
    return ran.stdout, ran.stderr, ran.returncode


def of_text(program, name, text, *words):
    """The same for a file of this name and text."""
    with tempfile.TemporaryDirectory() as folder:
        (pathlib.Path(folder) / name).write_text(text)
        return imported(program, folder, *words, name)


def accept(program, text):
    """Has the program check a configuration."""
    printed, _, status = checked(program, text)
    expect((printed, status), (f"ok {text.count('[[route]]')}\n", 0))

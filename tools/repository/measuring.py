"""The programs of tools/measurements, proved and built as crates of a copy of the repository.

The gate proves each `.rt` and `.antt` file of the repository, and no user needs a proof of a
program that only measures. So their files have the endings of ENDINGS, and in the copy those of a
crate.
"""
import pathlib
import shutil
import subprocess
import tempfile

from repository import crates, tried
from repository.crates import TOP
from repository.edits import copy_repository

FOLDER = TOP / "tools" / "measurements"
OUT = FOLDER / "out"
ENDINGS = {".rs": ".rt", ".proof": ".antt"}


class Unbuilt(Exception):
    """A program that was not built, with the toolchain's last lines."""


def uses():
    """The used crates of each measuring program."""
    lines = (FOLDER / "uses").read_text(encoding="utf-8").splitlines()
    parts = (line.partition(":") for line in lines if line and not line.startswith("#"))
    return {name: used.split() for name, _, used in parts}


def files(name):
    return sorted(path for path in (FOLDER / name).rglob("*") if path.is_file())


def text(name):
    """A digest of a program's files and of all crates below it."""
    texts = tried.of_texts(TOP)
    own = [path.read_bytes() for path in files(name)]
    under = (texts[used].encode() for used in uses()[name] if used in texts)
    return tried.digest(tried.toolchain(), *own, *under)


def below(names):
    """These crates, if the repository has them, and all crates below."""
    known = crates.uses()
    found, left = set(), [name for name in names if name in known]
    while left:
        name = left.pop()
        if name not in found:
            found.add(name)
            left += [used for used in known[name] if used in known]
    return found


def place(name, top):
    """Leaves in the copy at `top` the crates below a program alone, and adds the program."""
    kept = below(uses()[name])
    for folder in (top / "crates").iterdir():
        if folder.is_dir() and folder.name not in kept:
            shutil.rmtree(folder)
        shutil.rmtree(folder / "must-fail", ignore_errors=True)
    for path in files(name):
        to = top / "crates" / path.relative_to(FOLDER)
        to = to.with_suffix(ENDINGS.get(to.suffix, to.suffix))
        to.parent.mkdir(parents=True, exist_ok=True)
        shutil.copy2(path, to)
    lines = [f"{each}: {' '.join(used)}\n" for each, used in crates.uses().items() if each in kept]
    lines.append(f"{name}: {' '.join(uses()[name])}\n")
    (top / "crates.txt").write_text("".join(lines), encoding="utf-8")


def build(name):
    """Proves and builds a program in a copy, and keeps the program in OUT. `rt ci` proves nothing
    twice on a machine."""
    with tempfile.TemporaryDirectory(prefix="measuring-") as folder:
        top = pathlib.Path(folder)
        copy_repository(top)
        place(name, top)
        ran = subprocess.run(["rt", "ci"], cwd=top, stdin=subprocess.DEVNULL, text=True,
                             stdout=subprocess.PIPE, stderr=subprocess.STDOUT, errors="replace")
        made = top / "crates" / name / "out" / name
        if ran.returncode or not made.is_file():
            raise Unbuilt(f"{name} was not built:\n" + "\n".join(ran.stdout.splitlines()[-15:]))
        OUT.mkdir(exist_ok=True)
        shutil.copy2(made, OUT / name)
        (OUT / f"{name}.text").write_text(text(name), encoding="utf-8")


def built(name):
    """The path of a measuring program, built for these sources."""
    kept = OUT / f"{name}.text"
    if not (OUT / name).is_file() or not kept.is_file() or kept.read_text() != text(name):
        build(name)
    return str(OUT / name)

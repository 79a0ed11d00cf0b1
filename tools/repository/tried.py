"""The wrong bodies of the second tier that the prover refused: `wrong-bodies/tried` of a crate.

A line has an edit's name and a digest of all that decides on a refusal at a goal: the edit, the
files of its crate and of all crates below, without comment lines, and the toolchain's logic.
"""
import hashlib
import subprocess

from repository.crates import uses

PARTS = ("src", "specs", "proofs")
# The beginning of a comment line. No text in quotes of the sources has a line with this beginning.
COMMENTS = {".rt": b"//", ".antt": b"--"}
HEAD = "# The text on which each edit was refused at a goal. tools/wrong_bodies writes this.\n"


def digest(*parts):
    """A digest of a list of octets. Their lengths keep the parts apart."""
    of_all = hashlib.sha256()
    for part in parts:
        of_all.update(len(part).to_bytes(8, "big") + part)
    return of_all.hexdigest()[:16]


def toolchain():
    """The toolchain's line: its kit, and the sum of its logic."""
    return subprocess.run(["rt", "version"], capture_output=True, check=True).stdout


def text_of(file):
    """The lines of a file without comment lines."""
    mark, lines = COMMENTS.get(file.suffix), file.read_bytes().split(b"\n")
    return b"\n".join(line for line in lines if not mark or not line.lstrip().startswith(mark))


def of_texts(top):
    """A digest for each crate of the copy at `top`: its files, all crates below, the toolchain's
    logic. Kits of equal logic differ in commands and speed."""
    found, logic = {}, toolchain().partition(b" logic ")[2] or toolchain()
    for name, used in uses().items():
        crate, parts = top / "crates" / name, [logic, " ".join(used).encode()]
        for file in sorted(path for part in PARTS for path in (crate / part).rglob("*")):
            if file.is_file():
                parts += [str(file.relative_to(crate)).encode(), text_of(file)]
        found[name] = digest(*parts, *(found[each].encode() for each in used if each in found))
    return found


def of_edit(edit, text):
    """The digest of an edit of the crate whose text has the digest `text`."""
    lines = [line for line in edit.read_bytes().split(b"\n") if not line.startswith(b"#")]
    return digest(text.encode(), *lines)


def read(folder):
    """The digests of a folder of edits, by their names."""
    file = folder / "tried"
    text = file.read_text(encoding="utf-8") if file.is_file() else ""
    return dict(line.split() for line in text.splitlines() if not line.startswith("#"))


def write(folder, digests):
    """Writes the digests of a folder of edits; without any there is no file."""
    file = folder / "tried"
    lines = [f"{name} {digests[name]}\n" for name in sorted(digests)]
    if lines:
        file.write_text(HEAD + "".join(lines), encoding="utf-8")
    else:
        file.unlink(missing_ok=True)

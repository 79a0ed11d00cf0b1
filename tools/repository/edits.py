"""Edits of sources: a line `file:`, then pairs of lines `old:` and `new:` for this file. A line
`gone:` names a file that a pair of `tools/wrong_bodies --pairs` leaves out."""
import shutil
import subprocess

from repository.crates import TOP


def applied(path):
    """The files that an edit names, by their paths from its crate's folder, with their new texts;
    and why it cannot be applied, if so: an `old:` without its one place in the file, after the
    pairs before."""
    texts, name, old = {}, "", ""
    for line in path.read_text().split("\n"):
        key, _, value = line.partition(": ")
        if key == "file":
            name = value.strip()
            if not (path.parent.parent / name).is_file():
                return texts, f"there is no {name}"
            texts.setdefault(name, (path.parent.parent / name).read_text())
        elif key == "old":
            old = value
        elif line.startswith("new:"):
            count = texts[name].count(old) if name and old else 0
            if count != 1:
                return texts, f"an `old:` text is in {name or 'no file'} {count} times"
            texts[name], old = texts[name].replace(old, line[4:].removeprefix(" ")), ""
    return texts, None if texts else "it names no file"


def copy_repository(to):
    """Copies to the folder `to` all files of the repository that git does not ignore."""
    listing = ["git", "ls-files", "-z", "--cached", "--others", "--exclude-standard"]
    listed = subprocess.run(listing, cwd=TOP, stdout=subprocess.PIPE, check=True).stdout
    for path in {path.decode() for path in listed.split(b"\0") if path}:
        if (TOP / path).is_file():
            (to / path).parent.mkdir(parents=True, exist_ok=True)
            shutil.copy2(TOP / path, to / path)

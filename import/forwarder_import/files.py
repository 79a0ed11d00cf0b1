"""The files of foreign forwarders: lines, and included files."""
import codecs
import collections
import contextlib
import glob
import os
from dataclasses import dataclass

LARGEST = 16 * 1024 * 1024  # octets of a file
MOST_FILES, DEEPEST = 1000, 20  # files in all, and files within files
LONGEST, LONGEST_ADVICE = 160, 400  # shown characters of a line, and of advice


class Unreadable(Exception):
    """Why a file can't be read; the message begins with the path."""


def unreadable(line, what):
    """Why reading ends at a line."""
    return Unreadable(f"{shown(line.path)}:{line.number}: {what}")


@dataclass(frozen=True)
class Line:
    """A line, or a statement from this line on. Number 0 is the whole file."""

    path: str
    number: int
    text: str = ""


class Refused(Exception):
    """Why something can't be carried: advice, and the row of the table with more, if any."""

    def __init__(self, what, row=None):
        super().__init__(what)
        self.what, self.row = what, row


class Files:
    """Reads files. `root` is the folder for absolute paths of includes."""

    def __init__(self, root=""):
        self.root = root.rstrip("/")
        self.read, self.within, self.count = [], [], 0
        self.short = None  # the names of files, once they are wanted

    @contextlib.contextmanager
    def lines(self, path, by=None):
        """The lines of a file, while it is read. `by` is the including line, if any."""
        real = os.path.realpath(path)
        if real in self.within:
            raise Refused("the file is being read already: it would include itself")
        self.within.append(real)
        try:
            yield self.text(path)
        except Unreadable as fault:
            raise fault if by is None else unreadable(by, fault) from None
        finally:
            self.within.pop()

    def text(self, path):
        """The lines of a file, without their ends."""
        self.count += 1
        if self.count > MOST_FILES or len(self.within) > DEEPEST:
            most = f"{MOST_FILES} files, or of {DEEPEST} in one another"
            raise Unreadable(f"{shown(path)}: is one of more than {most}")
        if path not in self.read:
            self.read.append(path)
            self.short = None
        text = octets_of(path).decode("utf-8-sig", "backslashreplace")
        return [Line(path, number, line.removesuffix("\r"))
                for number, line in enumerate(text.split("\n"), 1)]

    def place(self, line, last=None):
        """The file and number of a line, or of a range, once all files are read; the file's name
        alone if unique."""
        self.short = self.short or short_names(self.read)
        path = self.short[line.path]
        until = f"-{last.number}" if last and last.number != line.number else ""
        return f"{path}:{line.number}{until}" if line.number else path

    def path(self, written, line):
        """The path in a line: below the root, next to the line's file, or in the working folder."""
        if not written:
            raise Refused("it names no file")
        if os.path.isabs(written):
            return self.root + written
        beside = os.path.join(os.path.dirname(line.path), written)
        return written if glob.glob(written) and not glob.glob(beside) else beside

    def paths(self, pattern, line):
        """The paths of a pattern in a line, sorted; a path without wildcards is kept."""
        path = self.path(pattern, line)
        paths = sorted(glob.glob(path)) if glob.has_magic(pattern) else [path]
        if not paths:
            raise Refused(f"there is no file {path}")
        return paths


def short_names(paths):
    """The names of files by path; the path itself if two files have the name."""
    bases = [os.path.basename(path) for path in paths]
    counts = collections.Counter(bases)
    return {path: shown(base if counts[base] == 1 else path) for path, base in zip(paths, bases)}


def octets_of(path):
    """The content of a file, unless it can be no text."""
    try:
        with open(path, "rb") as file:
            octets = file.read(LARGEST + 1)
    except (OSError, ValueError) as fault:
        raise Unreadable(f"{shown(path)}: {getattr(fault, 'strerror', None) or fault}") from None
    if len(octets) > LARGEST:
        raise Unreadable(f"{shown(path)}: has more than {LARGEST} octets")
    if octets.startswith((codecs.BOM_UTF16_LE, codecs.BOM_UTF16_BE)):
        raise Unreadable(f"{shown(path)}: is text in UTF-16: save the file as UTF-8")
    if b"\0" in octets:
        raise Unreadable(f"{shown(path)}: is no text: it has an octet 0")
    return octets


def shown(text, longest=LONGEST):
    """A foreign text as a line of a comment: spaces joined, unprintable characters escaped."""
    joined = " ".join(text.split())
    if joined.isprintable() and len(joined) <= longest:
        return joined
    escaped = "".join(each if each.isprintable() else ascii(each)[1:-1] for each in joined)
    return escaped if len(escaped) <= longest else f"{escaped[:longest]} .."

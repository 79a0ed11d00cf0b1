"""The tables of options of foreign programs, a file of TOML each."""
import pathlib
import re
import tomllib
import types

from .files import Refused
from .names import keep
from .rows import Row


class Options(types.SimpleNamespace):
    """The values of a table, with the advice on options without a counterpart."""

    def __init__(self, name, program):
        path = pathlib.Path(__file__).with_name(f"{name}.toml")
        values = tomllib.loads(path.read_text(encoding="utf-8"))
        self.entries, text = [], values.pop("left_out").replace("KEEP", keep(program))
        for head, patterns in re.findall(r"(?m)^(\S.*)\n((?: .*\n)+)", text):
            row, _, what = head.partition(":")
            refused = what.strip(), None if row == "-" else Row[row]
            self.entries.append((re.compile("|".join(patterns.split())), refused))
        unknown = f"{values['unknown']}: {keep(program)}"
        self.entries.append((re.compile("(?s:.*)"), (unknown, None)))
        super().__init__(**{"same": {}, "needless": {}, **values})

    def left_out(self, name):
        """The advice on a name, by the first pattern equal to the whole name."""
        found = (refused for pattern, refused in self.entries if pattern.fullmatch(name))
        return Refused(*next(found))

    def settle(self, found, name, value, line):
        """Passes over an option that is so here, or in no need of a line; otherwise refuses it."""
        if self.same.get(name) == value:
            found.pass_over(line, "so it is here")
        elif name in self.needless:
            found.pass_over(line, self.needless[name])
        else:
            raise self.left_out(name)

"""Configurations of foreign programs, files of the folder conf, to be filled in: a server at one
place of this machine, with its files in a folder."""
import pathlib

CONF = pathlib.Path(__file__).with_name("conf")


def text(*names):
    """The text of some files."""
    return "".join((CONF / name).read_text(encoding="utf-8") for name in names)

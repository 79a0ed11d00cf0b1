"""Pages that a tool writes, and compares if asked for a check alone."""
import textwrap

from repository.crates import TOP


def wrapped(text, first="", further=""):
    """A paragraph in lines of the pages' width, with these indents."""
    return textwrap.fill(" ".join(text.split()), 120, initial_indent=first,
                         subsequent_indent=further, break_long_words=False, break_on_hyphens=False)


def kept(page, text, is_checked, command, faults=(), fine=None):
    """Writes a page, or notes a stale page. Prints all faults, or `fine`; returns the status."""
    found = list(faults)
    if not is_checked:
        page.write_text(text, encoding="utf-8")
    elif not page.is_file() or page.read_text(encoding="utf-8") != text:
        found.append(f"{page.relative_to(TOP)} is stale: run {command}")
    print("\n".join(found or [fine or f"{page.relative_to(TOP)} is not stale"]))
    return 1 if found else 0

"""The table of figures in Markdown, with the text around, from the JSON of a run."""
import os
import pathlib
import platform
import re
import textwrap
import time
import tomllib

NONE = "–"
BEGIN, END = "<!-- begin: tools/beside --costs -->", "<!-- end: tools/beside --costs -->"
SHOWN = tomllib.loads(pathlib.Path(__file__).with_name("shown.toml").read_text(encoding="utf-8"))


def number(value):
    return f"{value:.0f}" if value >= 100 else f"{value:.1f}" if value >= 10 else f"{value:.2f}"


def cell(found, what):
    if found is None:
        return NONE
    if what == "us":
        return f"{number(found['us'])} ({found['ratio']:.2f})"
    if what == "split":
        return f"{number(found['user'])}, {number(found['system'])}"
    return f"{found[what]:.{0 if what in ('asked', 'p50', 'p99') else 1}f}"


def table(run):
    """The lines of the table. A row without figure in an older run is left out."""
    keys = list(run["programs"])
    titles = " | ".join(run["programs"][key]["title"] for key in keys)
    lines = [f"| µs of processor | {titles} |", "|---|" + "--:|" * len(keys)]
    for title, name, what in (row for row in SHOWN["costs"] if row[1] in run["figures"]):
        cells = [cell(run["figures"][name].get(key), what) for key in keys]
        lines.append(f"| {title} | " + " | ".join(cells) + " |")
    return lines


def processors_busy(seconds=3.0):
    """The share of the processors' time that is used now."""
    def times():
        line = pathlib.Path("/proc/stat").read_text().partition("\n")[0]
        words = [int(word) for word in line.split()[1:9]]
        return sum(words), words[3] + words[4]

    (before, idle), _ = times(), time.sleep(seconds)
    after, still_idle = times()
    return 100 * (1 - (still_idle - idle) / max(1, after - before))


def machine():
    """The machine of the figures, and how busy it is now."""
    model = re.search(r"model name\s*:\s*(.*)", pathlib.Path("/proc/cpuinfo").read_text())
    system = re.search(r'PRETTY_NAME="(.*)"', pathlib.Path("/etc/os-release").read_text())
    return {"processors": os.cpu_count(), "model": model[1] if model else platform.machine(),
            "kernel": platform.release().split("-")[0], "system": system[1] if system else "",
            "load": round(os.getloadavg()[0], 2), "busy": round(processors_busy())}


def a_second(run, name):
    """The answers of the forwarder in a second of a processor, in two digits."""
    rate = 1e6 / run["figures"][name]["forwarder"]["us"]
    return f"{float(f'{rate:.2g}'):,.0f}"


def serves(run):
    """A sentence on what one processor serves, if the forwarder was measured."""
    if all("forwarder" in run["figures"].get(name, {}) for name in ("cached", "miss")):
        cached, new = a_second(run, "cached"), a_second(run, "miss")
        yield (f"At these figures one processor serves {cached} cached answers or {new} new names "
               "in a second.")
        yield ""


def about(run):
    """Sentences on the machine, how busy it was, the versions and how often was measured."""
    # The load, of the minute before, says less.
    on, idle = run["machine"], run["machine"]["busy"] < 5
    busy = "The machine was idle before" if idle else "The machine was NOT idle"
    waits = [each["waited"] for figures in run["figures"].values() for each in figures.values()]
    versions = [f"{each['title']} {each['version']}"
                for each in run["programs"].values() if each["version"]]
    lines = [
        f"{on['processors']} processors, {on['model']}; {on['system']}, Linux {on['kernel']}.",
        f"{busy}: processors {on['busy']} % busy, a load of {on['load']} in the last minute.",
        f"What was measured waited for its processor for up to {max(waits, default=0):.0f} % of "
        "the time in which it could run.",
        "" if idle else "So how long a client waits says more of the machine than of a program.",
        f"Rounds: {run['rounds']}, of {run['seconds']:g} s for each load.",
        ", ".join([f"dnsperf {run['dnsperf']}", *versions]) + "."]
    return textwrap.wrap(" ".join(filter(None, lines)), 120, break_on_hyphens=False)


def whole(run):
    """The lines of the table, and of the text below."""
    return [*table(run), "", *serves(run), *about(run)]


def between(begin, end, text, lines):
    """The text of a document, with these lines between its two comments."""
    before, found, rest = text.partition(begin + "\n")
    _, ended, after = rest.partition(end)
    if not found or not ended:
        raise ValueError(f"{begin} or {end} is missing")
    return before + found + "\n".join(["", *lines, ""]) + "\n" + end + after


def with_table(text, run):
    """The text of docs/COSTS.md, with the table of this run."""
    return between(BEGIN, END, text, whole(run))

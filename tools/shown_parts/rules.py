"""The needs of a shown command, or why the command is not run. A command without a rule runs as
shown, and soon ends with status 0."""
import dataclasses
import re
import tomllib

from .pages import TOP

PROGRAM = "crates/forwarder_main/out/forwarder_main"


@dataclasses.dataclass
class Rule:
    """Why a command is not run, and the `heir`: the tool that runs the command. Otherwise the
    `scene` before the command, the status, and the seconds until an interrupt."""

    of: str
    why: str = ""
    heir: str = ""
    slow: bool = False
    status: int = 0
    scene: str = ""
    until: int = 0


RULES = [
    Rule(r".*tools/gate_cost .*", "the prover"),
    Rule(r".*\brt (ci|check|must-fail|run|plant|fmt)\b.*|tools/wrong_bodies NAME", "the prover",
         "tools/release_check"),
    Rule(r"tools/reproduce REVISION", "an hour of the prover"),
    Rule(r".*\brt try\b.*", slow=True),
    Rule(r"tools/release_check.*", "hours"),
    Rule(r"tools/(beside|soak|with_others|instructions)\b.*", "minutes", "tools/release_check"),
    Rule(r"tools/(loopback|trials|second_reading(?! replay))\b.*|tools/shown.*|"
         r"(explain|import)/test .*|"
         r"tools/(crates_index|definitions|wrong_bodies_index|pictures|reaches|links)\b( --\w+)?",
         "a part of it", "tools/trials"),
    Rule(r"tools/pictures .+|tools/beside --costs", "writes what is committed", "tools/pictures"),
    Rule(r"tools/free_bits PROGRAM|dsc=\S+packaging/source .*", slow=True),
    Rule(r"packaging/try .*", "minutes and a network", "tools/release_check"),
    Rule(r"packaging/build .*", "this made the package", "tools/shown"),
    Rule(r".*systemctl .*\bforwarder-capture", "a booted systemd", "packaging/walk"),
    Rule(r"sudo apt-get .*|dpkg-query .*", "dpkg's own lists; packaging/try installs by dpkg"),
    Rule(r"(sudo )?explain/trials/.*", "minutes, for who changes the explainer"),
    Rule(r"autopkgtest .*", "a root with a network"),
    Rule(r"sudo sysctl --system", "the settings are the whole machine's"),
    Rule(r"kill %1|sleep 60; .*", "the shell of another line"),
    Rule(r"(sudo )?tcpdump .*-w [^-]\S+ .*", until=4),
    Rule(r"(sudo )?(tcpdump|forwarder-explain) (?s:.*)--follow (?s:.*)|"
         r"(sudo )?forwarder-explain --follow (?s:.*)", scene="captured", until=4),
    Rule(r"sudo forwarder-explain --from 08:00 (?s:.*)", scene="morning"),
    Rule(r".*(/var/lib/forwarder-capture|seen\.pcap)(?s:.*)", scene="captured"),
    Rule(r"forwarder-import (?s:.*)", status=1),
    Rule(r"forwarder-advise --ask .*", status=1, scene="unwise"),
    Rule(r"sudo timeout 1d (?s:.*)", status=124),
    Rule(r"dig .*-p 5300 www.*", scene="listening"),
    Rule(r"dig @10\.0\.0\.53 www\.example\.com", scene="empty_cache"),
    Rule(r"while read -r name type(?s:.*)", scene="names_of_a_day"),
    Rule(r"dpkg-deb -x pavelimoan_NEW.*", scene="new_package"),
    Rule(r"dig .*fresh\.corp\.example.*", scene="company_down"),
    Rule(r"forwarder check \S+\.tml", status=5),
    Rule(r"dig .*alive\.lan.*", scene="lan_denied"),
]


# What stands for a part of a shown command: the built program, a short day.
INSTEAD = {"PROGRAM": PROGRAM, "timeout 1d": "timeout 2"}
# Milliseconds after which clients give up, and the sets of 60 KB that MemoryMax of the unit holds.
PATIENCE, HELD = 5000, 7000


def at_odds(text):
    """What a configuration that sets times, or a cache, has against the advice of docs/ADMIN.md."""
    limits = tomllib.loads(text).get("limits", {})
    silent = limits.get("tries", 4) * limits.get("ask_ms", 1500)
    deadline = limits.get("deadline_ms", 8000)
    if limits.keys() & {"tries", "ask_ms", "deadline_ms"} and not silent < deadline < PATIENCE:
        return f"not {silent} < {deadline} < {PATIENCE} ms"
    if limits.get("cache", 0) > HELD:
        return f"a cache of more than {HELD} may not fit into MemoryMax"
    return None


def as_run(text):
    for shown, instead in INSTEAD.items():
        text = text.replace(shown, instead)
    return text


def rule_of(text):
    """The first rule for a command, or the common one."""
    return next((rule for rule in RULES if re.fullmatch(rule.of, text)), Rule(""))


def unknown(text):
    """The files and crates in a command that the repository does not have."""
    for word in re.findall(r"(?<![\w/.$])(?:tools|packaging|explain|examples|docs)/[\w./-]+", text):
        if not (TOP / word).exists():
            yield word
    for word in re.findall(r"(?:rt (?:ci|must-fail)|tools/wrong_bodies) ([a-z]\w+)", text):
        if not (TOP / "crates" / word).is_dir():
            yield f"the crate {word}"


TOOL = re.compile(r"(?:tools|packaging|explain|import)/[\w/]+|\brt\b|forwarder-capture")


def is_run_by_heir(text, heir):
    """Whether the text of the heir names the command's tool."""
    tool = TOOL.search(text)
    return bool(tool) and tool[0] in (TOP / heir).read_text(encoding="utf-8")

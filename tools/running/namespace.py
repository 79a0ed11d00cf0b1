"""A network namespace of its own for a tool, with a loopback alone."""
import os
import subprocess
import sys

INSIDE = "TOOL_IN_NAMESPACE"


class NoNamespace(Exception):
    """A user without the right to make one."""


def enter(script, words):
    """Runs the script again, with these words, in a namespace; returns in that second run."""
    if os.environ.pop(INSIDE, None):
        subprocess.run(["ip", "link", "set", "lo", "up"], check=True)
        return
    unshare = ["unshare", "--net", *([] if os.geteuid() == 0 else ["--map-root-user"])]
    if subprocess.run([*unshare, "true"], check=False).returncode:
        raise NoNamespace("it needs root, or a system that lets users make namespaces")
    os.environ[INSIDE] = "1"
    sys.stdout.flush()
    os.execvp("unshare", [*unshare, os.path.abspath(script), *words])

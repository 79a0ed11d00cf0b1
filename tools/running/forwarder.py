"""The forwarder of this repository: its configuration and its process."""
import subprocess
import tempfile

from running.programs import WHOLE_LIFE, Program


def peer(server):
    """A server as a configuration names it: by address and port, or by a port of this machine."""
    return f'"127.0.0.1:{server}"' if isinstance(server, int) else f'"{server}"'


def configuration(listen, routes, limits=None, version=1):
    """The text of a configuration. `routes` has the servers of each suffix; without servers the
    suffix is denied."""
    lines = [f"version = {version}", f'listen = "{listen}"', "[limits]"]
    lines += [f"{key} = {value}" for key, value in (limits or {}).items()]
    for suffix, servers in routes.items():
        listed = f"servers = [{', '.join(map(peer, servers))}]" if servers else "deny = true"
        lines += ["[[route]]", f'suffix = "{suffix}"', listed]
    return "\n".join(lines) + "\n"


def checked(program, text):
    """Output, standard error and status of `check` of a configuration, a text or octets."""
    with tempfile.NamedTemporaryFile(suffix=".toml") as file:
        file.write(text.encode() if isinstance(text, str) else text)
        file.flush()
        ran = subprocess.run([program, "check", file.name], capture_output=True, text=True)
    return ran.stdout, ran.stderr, ran.returncode


class Service(Program):
    """The service of a configuration, from the file's path on."""

    def __init__(self, program, file, turns=WHOLE_LIFE, before=(), **more):
        """`before` are the words of a program that runs the service."""
        super().__init__([*before, program, "serve", file, turns], **more)

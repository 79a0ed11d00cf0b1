"""The work of the tests' processes, each with some captures, for as long as the time allows."""
import contextlib
import io
import os
import pathlib
import time
import traceback

import changing
import leaving_out
from forwarder_explain import command

CAPTURES = pathlib.Path(__file__).resolve().parent / "captures"


def ran(folder, program, *words):
    """Standard output, standard error and status of a run in a folder, with times of UTC."""
    before = os.getcwd()
    os.environ["TZ"] = "UTC"
    time.tzset()
    os.chdir(folder)
    with contextlib.redirect_stdout(io.StringIO()) as printed, contextlib.redirect_stderr(io.StringIO()) as said:
        try:
            status = command.main(["--program", str(program), *map(str, words)])
        except SystemExit as end:
            status = end.code
        finally:
            os.chdir(before)
    return printed.getvalue(), said.getvalue(), status


def explained(program, settings, name, octets, *words):
    """The status of a run over a capture, with standard output and standard error."""
    options = command.arguments(["--program", program, *words, "office.toml", name])
    with contextlib.redirect_stdout(io.StringIO()) as printed, contextlib.redirect_stderr(io.StringIO()) as said:
        status = command.guarded(options, lambda: command.run(options, settings, [io.BytesIO(octets)]))
    return status, printed.getvalue(), said.getvalue()


def explain_without(job):
    """How many captures with packets left out were explained in time, and the faults."""
    program, settings, losses, until = job
    count, faults = 0, []
    for name, places, is_counted in losses:
        if time.monotonic() > until:
            break
        count += 1
        octets = next(CAPTURES.glob(f"{name}.pcap*")).read_bytes()
        left = leaving_out.without(octets, places)
        status, _, said = explained(program, settings, name, leaving_out.counted(left) if is_counted else left)
        if status == 1 or status == 2 and "has no question" not in said:
            faults.append(f"{name} without {places}: status {status}")
    return count, faults


def explain_changed(job):
    """How many changed captures were explained in time, and the faults."""
    program, settings, seeds, until = job
    count, faults, captures = 0, [], {path.name: path.read_bytes() for path in CAPTURES.glob("*.pcap*")}
    for name, seed in seeds:
        if time.monotonic() > until:
            break
        count += 1
        fault = fault_with(program, settings, name, changing.changed(captures[name], f"{name} {seed}"))
        if fault:
            faults.append(f"{name} with seed {seed}: {fault}")
    return count, faults


def fault_with(program, settings, name, octets):
    """The fault of an explanation, or None."""
    try:
        status, printed, said = explained(program, settings, name, octets)
    except Exception:  # any exception is a failure
        return traceback.format_exc()
    if status not in (0, 1, 2) or not (said if status == 2 else printed):
        return f"status {status} after {printed!r} and {said!r}"
    return None

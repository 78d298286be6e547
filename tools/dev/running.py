"""Running the program within a time limit, and what holds of every run, for the scripts beside this file."""
import subprocess, time

from timing import Ended

# Done, a refused input, usage, unlightable, rejected, stopped, reading or writing failed, memory or threads refused.
STATUSES = range(8)
REFUSED = (1, 3, 6, 7)


def run(words, given=None, limit=60, stdout=subprocess.PIPE):
    """How a run ended, with its time by the clock; the status None where it took too long."""
    began = time.monotonic()
    stdin = subprocess.DEVNULL if given is None else open(given, "rb")
    try:
        child = subprocess.Popen(words, stdin=stdin, stdout=stdout, stderr=subprocess.PIPE)
    finally:
        if given is not None:
            stdin.close()
    try:
        out, err = child.communicate(timeout=limit)
        status = child.returncode
    except subprocess.TimeoutExpired:
        child.kill()
        out, err = child.communicate()
        status = None
    return Ended(status, out or b"", err, time.monotonic() - began, 0, 0)


def against(ended):
    """What no run may do, as far as this one did it."""
    if ended.status is None:
        return ["it took too long"]
    if ended.status not in STATUSES:
        return [f"ended by {ended.status}"]
    if ended.status == 2:
        return []
    seen = []
    if ended.status in REFUSED:
        if ended.out:
            seen.append("refused, and something printed")
        if not (ended.err.startswith(b"torchplan: ") and ended.err.endswith(b"\n") and ended.err.count(b"\n") == 1):
            seen.append(f"refused with {ended.err[:80]!r}")
    elif ended.err:
        seen.append(f"status {ended.status}, and {ended.err[:80]!r} on standard error")
    return seen


def misfits(ended, status, out=None, line=None):
    """What a run did otherwise than it had to, the answer being known."""
    seen = against(ended)
    if ended.status != status:
        seen.append(f"status {ended.status}, not {status}")
    if out is not None and ended.out != out:
        seen.append(f"printed {ended.out[:100]!r}, not {out[:100]!r}")
    if line is not None and ended.err != f"torchplan: {line}\n".encode():
        seen.append(f"said {ended.err[:100]!r}, not {line[:100]!r}")
    return seen

"""A run, and what the system tells of it meanwhile."""
import subprocess
import tempfile
import time

LIMIT = 300  # seconds


def state_of(process):
    """How many threads a process has, and its peak of memory in MB so far; zeros where it is gone."""
    try:
        with open(f"/proc/{process}/status") as file:
            told = dict(line.split(":", 1) for line in file)
        return int(told["Threads"]), int(told["VmHWM"].split()[0]) / 1024
    except (OSError, KeyError):
        return 0, 0


def watched(words):
    """A run: its status, None where it took too long; its first line; the most threads that were alive at once, as a
    look each millisecond tells; and its peak of memory in MB."""
    with tempfile.TemporaryFile() as out:
        started = subprocess.Popen(words, stdin=subprocess.DEVNULL, stdout=out, stderr=subprocess.DEVNULL)
        most, peak, until = 0, 0, time.monotonic() + LIMIT
        while started.poll() is None and time.monotonic() < until:
            threads, megabytes = state_of(started.pid)
            most, peak = max(most, threads), max(peak, megabytes)
            time.sleep(0.001)
        status = started.poll()
        if status is None:
            started.kill()
            started.wait()
        out.seek(0)
        return status, out.readline().decode(errors="replace").strip(), most, peak

"""Times of runs and their peaks of memory, for the scripts beside this file: all that measure do it here."""
import os, subprocess, tempfile, time
from collections import namedtuple

# How a run ended (its status is None where it took too long), what it printed, its time by the clock and on processors
# in seconds, and the peak of its memory in MB.
Ended = namedtuple("Ended", "status out err seconds processor megabytes")


def timed(words, limit=600):
    """One run. What is printed goes by files, so that none of it is lost. A child begins with the memory of this
    process, so the peak is at least that of this process so far."""
    with tempfile.TemporaryFile() as out, tempfile.TemporaryFile() as err:
        began = time.monotonic()
        words = ["timeout", "-s", "KILL", str(limit), *words]
        child = subprocess.Popen(words, stdin=subprocess.DEVNULL, stdout=out, stderr=err)
        _, status, usage = os.wait4(child.pid, 0)
        seconds = time.monotonic() - began
        child.returncode = os.waitstatus_to_exitcode(status)
        out.seek(0)
        err.seek(0)
        status = None if seconds >= limit else child.returncode
        processor = usage.ru_utime + usage.ru_stime
        return Ended(status, out.read(), err.read(), seconds, processor, usage.ru_maxrss / 1024)


def least(words, times=3, limit=600):
    """Of `times` runs the one that took the least processor time, with the highest peak of all; the first that doesn't
    end well, where one doesn't."""
    runs = []
    for _ in range(times):
        runs.append(timed(words, limit))
        if runs[-1].status != 0:
            return runs[-1]
    best = min(runs, key=lambda ended: ended.processor)
    return best._replace(megabytes=max(ended.megabytes for ended in runs))


def first_line(ended):
    """What was printed first, or else told first."""
    return (ended.out or ended.err).split(b"\n")[0].decode(errors="replace")

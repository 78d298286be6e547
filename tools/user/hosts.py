"""Other machines, which GNU parallel reaches by ssh. In the home folder of each lies a checkout named torchplan."""
import os
import subprocess
from contextlib import suppress

from program import lines_of
from refusals import FAILED, Refusal

COMMAND = "~/torchplan/tools/user/plan-piece"
BLOCK = "16M"  # what is read ahead; a line may be longer
JOBS, LOG = "jobs", "log"


def require_parallel():
    """Refuses a system without GNU parallel; moreutils have another program of that name."""
    try:
        ran = subprocess.run(["parallel", "--version"], stdin=subprocess.DEVNULL, capture_output=True)
        is_there = ran.stdout.startswith(b"GNU parallel ")
    except OSError:
        is_there = False
    if not is_there:
        raise Refusal("--hosts takes GNU parallel, which isn't installed here", FAILED)


class Hosts:
    """Machines by their names for ssh, joined by commas.

    jobs     how many pieces each plans at once
    line_of  the line that plan-piece takes of a piece, under a name"""

    def __init__(self, names, jobs, line_of):
        self.names, self.jobs, self.line_of = names, jobs, line_of

    def answers(self, pieces, folder):
        """What plan-piece answers of pieces by their names, a line each, as it comes. The folder gets a log of which
        host planned when, and for how long."""
        path = os.path.join(folder, JOBS)
        with open(path, "w+b") as lines:
            for name, piece in pieces.items():
                lines.write(self.line_of(name, piece))
            lines.seek(0)
            yield from self.run(lines, os.path.join(folder, LOG))
        os.remove(path)

    def run(self, lines, log):
        words = ["parallel", "--sshlogin", self.names, "--jobs", str(self.jobs), "--joblog", f"+{log}", "--pipe",
                 "--block", BLOCK, "-N", "1", COMMAND]
        child = subprocess.Popen(words, stdin=lines, stdout=subprocess.PIPE)
        try:
            yield from lines_of(child.stdout)
        except BaseException:
            child.terminate()  # after the first it waits for what runs
            with suppress(subprocess.TimeoutExpired):
                child.wait(0.5)
            child.terminate()
            raise
        finally:
            child.stdout.close()
            child.wait()

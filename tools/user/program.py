"""Running the planner, and passing on what it tells meanwhile."""
import os
import select
import subprocess
import sys

from refusals import FAILED, Refusal

LAUNCHER = os.path.join(os.path.dirname(os.path.abspath(__file__)), "..", "..", "torchplan")
# Lines of the planner that `light` says in its own words. They begin so, behind MARK.
MARK = "torchplan: "
UNKNOWN, UNLIGHTABLE, UNWRITTEN = "unknown block ", "unlightable ", "cannot write"
EDGE = "free cells lie at the box's edge: "
KEPT = (UNKNOWN, UNLIGHTABLE, EDGE, UNWRITTEN)
OTHERWISE = "{} answers otherwise than torchplan"


class Ended(Exception):
    """The planner ended by a status that leaves no plan.

    kept  what it said that isn't passed on yet: the rest of each such line by how it begins"""

    def __init__(self, command, status, kept):
        super().__init__(status)
        self.command, self.status, self.kept = command, status, kept


def lines_of(pipe):
    """The lines of a pipe, as they come. It looks up once a second: Python hears of a signal that comes just before a
    read only when that read has ended."""
    rest = b""
    while True:
        if not select.select([pipe], [], [], 1)[0]:
            continue
        data = os.read(pipe.fileno(), 65536)
        if not data:
            break
        *lines, rest = (rest + data).split(b"\n")
        yield from (line + b"\n" for line in lines)
    if rest:
        yield rest


class Program:
    """The planner, which TORCHPLAN in the environment names, or else the launcher at the top of the repository.

    options  the words that each command gets: table, headroom and rule"""

    def __init__(self, options=()):
        self.path = os.environ.get("TORCHPLAN") or os.path.normpath(LAUNCHER)
        self.options = options

    def start(self, words, out):
        try:
            return subprocess.Popen([self.path, *words], stdin=subprocess.DEVNULL, stdout=out, stderr=subprocess.PIPE)
        except OSError as fault:
            raise Refusal(f"cannot run {self.path}: {fault.strerror or fault}", FAILED) from None

    def version(self):
        """The version that the program tells."""
        child = self.start(["--version"], subprocess.PIPE)
        out, err = child.communicate()
        sys.stderr.write(err.decode("utf-8", "replace"))
        told = out.decode("utf-8", "replace").split()
        if child.returncode != 0 or told[:1] != ["torchplan"] or len(told) < 2:
            raise Refusal(f"{self.path} is no torchplan: it tells no version", FAILED)
        return told[1]

    def run(self, command, words, out, well=(0,)):
        """Runs a command whose standard output goes to the file `out`; its status, which is one of those that are well,
        and what it said that isn't passed on, as `Ended` has it."""
        child = self.start([command, *words, *self.options], out)
        kept, has_spoken = {}, False
        try:
            for line in lines_of(child.stderr):
                line = line.decode("utf-8", "replace")
                has_spoken = True
                begins = next((begins for begins in KEPT if line.startswith(MARK + begins)), None)
                if begins is not None:
                    kept[begins] = line[len(MARK + begins):].rstrip("\n")
                else:
                    sys.stderr.write(line)
                    sys.stderr.flush()
            status = child.wait()
        except BaseException:
            child.kill()
            child.wait()
            raise
        finally:
            child.stderr.close()
        if status < 0:
            raise Refusal(f"torchplan {command} was ended by signal {-status}", FAILED)
        if status not in well:
            if not has_spoken:
                raise Refusal(f"torchplan {command} ended by status {status} and said nothing", FAILED)
            raise Ended(command, status, kept)
        return status, kept

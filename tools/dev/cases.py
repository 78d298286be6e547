"""Runs of the program, what has to come of each, and a line for it; for try-files and the modules beside it."""
import contextlib, os, shutil, subprocess, sys, time

NOBODY = 65534
# How many seconds a run may take.
LIMIT = 120


class Cases:
    """Cases of one program over files in one folder, and how many failed."""

    def __init__(self, program, folder):
        self.program, self.folder, self.failed = program, folder, 0
        self.copied = None

    def path(self, name):
        return os.path.join(self.folder, name)

    def put(self, name, data):
        with open(self.path(name), "wb") as file:
            file.write(data)
        return self.path(name)

    def bytes_of(self, name):
        """The bytes of a file, None where there is none."""
        with contextlib.suppress(FileNotFoundError):
            with open(self.path(name), "rb") as file:
                return file.read()
        return None

    def run(self, words, program=None, **streams):
        """A run to its end, or to the limit; what is printed is kept, unless a stream is given for it."""
        streams = {"stdin": subprocess.DEVNULL, "stdout": subprocess.PIPE, "stderr": subprocess.PIPE, **streams}
        try:
            return subprocess.run([program or self.program, *words], timeout=LIMIT, **streams)
        except subprocess.TimeoutExpired as cut:
            return subprocess.CompletedProcess(words, None, cut.stdout or b"", cut.stderr or b"")

    def case(self, name, ended, status, line=None, out=None, told=None):
        """Tells whether a run ended as it had to: by its status, with just this fault line or these words on standard
        error, and with just this on standard output."""
        said = (ended.stderr or b"").decode(errors="replace")
        seen = []
        if ended.returncode != status:
            seen.append(f"status {ended.returncode}, not {status}")
        if line is not None and said != f"torchplan: {line}\n":
            seen.append(f"standard error {said!r}")
        if told is not None and told not in said:
            seen.append(f"standard error {said!r} without {told!r}")
        if out is not None and ended.stdout != out:
            seen.append(f"standard output {ended.stdout!r}")
        self.report(name, seen)

    def report(self, name, seen):
        self.failed += bool(seen)
        print(f"{name}: {'; '.join(seen) or 'ok'}", flush=True)

    def holds(self, name, is_so, otherwise):
        self.report(name, [] if is_so else [otherwise])

    def left_out(self, name, why):
        print(f"{name}: left out, {why}", flush=True)

    def open_to_all(self):
        """A copy of the program that any user may run, in the folder, which any user may then read."""
        if self.copied is None:
            os.chmod(self.folder, 0o755)
            self.copied = shutil.copy(self.binary(), self.path("program"))
            os.chmod(self.copied, 0o755)
        return self.copied

    def as_user(self, words, before=lambda: None, **streams):
        """A run by a user who isn't root, and who does `before` first. None where this system lets root be nobody
        else."""
        def leave_root():
            before()
            if os.geteuid() == 0:
                os.setgroups([])
                os.setgid(NOBODY)
                os.setuid(NOBODY)

        try:
            return self.run(words, self.open_to_all(), preexec_fn=leave_root, **streams)
        except subprocess.SubprocessError:
            return None

    def binary(self):
        """The program, also where it is the launcher: a script that becomes the program once it has found it."""
        with open(self.program, "rb") as file:
            if file.read(2) != b"#!":
                return self.program
        waiting = subprocess.Popen([self.program, "dark", "-"], stdin=subprocess.PIPE, stderr=subprocess.DEVNULL)
        try:
            for _ in range(1000):
                found = os.readlink(f"/proc/{waiting.pid}/exe")
                if os.path.basename(found) == "torchplan":
                    return found
                time.sleep(0.01)
            sys.exit(f"{self.program} became no program")
        finally:
            waiting.kill()
            waiting.wait()

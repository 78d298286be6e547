"""The launcher over a small repository: which program it runs, and when it builds."""
import gzip
import hashlib
import os
import shutil
import subprocess
import tempfile
import threading
import time
import unittest
import unittest.mock

TOP = os.path.dirname(os.path.dirname(os.path.dirname(os.path.dirname(os.path.abspath(__file__)))))
PROGRAM = b'#!/bin/sh\necho "packed $*"\n'
BUILDER = """#!/bin/sh
# Stands for rt: makes a program that says it was built.
[ "$1" = ci ] || exit 1
echo one >>"$BUILDS"
mkdir -p crates/torchplan/out
printf '#!/bin/sh\\necho "built $*"\\n' >crates/torchplan/out/torchplan
chmod 755 crates/torchplan/out/torchplan
"""
PACKED = "dist/torchplan-x86_64-linux.gz"
PACKED_FOR_ARM = "dist/torchplan-aarch64-linux.gz"
FOR_ARM = b'#!/bin/sh\necho "for ARM $*"\n'
FILES = {
    "crates.txt": b"# each crate, and what it stands on\nlow:\nother: low\ntorchplan may_wait=1: low clap\n",
    "HANDLES": b"Handles allowed: none.\n",
    "crates/low/src/lib.rt": b"pub fn low() {}\n",
    "crates/low/specs/Lib.antt": b"-- nothing\n",
    "crates/low/must-fail/wrong.edit": b"file: src/lib.rt\n",
    "crates/other/src/lib.rt": b"// no crate of the program\n",
    "crates/torchplan/src/main.rt": b"fn main() {}\n",
    "crates/torchplan/proofs/main/Answers.antt": b"-- nothing\n",
}
SOURCES = [name for name in FILES if name.startswith(("crates.txt", "crates/low/s", "crates/torchplan/"))]


def path_to(root, name):
    return os.path.join(root, *name.split("/"))


def write(path, data):
    os.makedirs(os.path.dirname(path), exist_ok=True)
    with open(path, "wb") as file:
        file.write(data)


def change_byte(path, at):
    """Turns one byte of a file into another."""
    with open(path, "r+b") as file:
        file.seek(at, os.SEEK_SET if at >= 0 else os.SEEK_END)
        old = file.read(1)
        file.seek(-1, os.SEEK_CUR)
        file.write(b"1" if old != b"1" else b"2")


class Checkout:
    """A small checkout, with a packed program and, elsewhere, a stand-in for rt."""

    def __init__(self):
        self.root = tempfile.mkdtemp()
        for name in ("torchplan", "tools/dev/sources.sh"):
            os.makedirs(os.path.dirname(path_to(self.root, name)), exist_ok=True)
            shutil.copy(path_to(TOP, name), path_to(self.root, name))
        for name, data in FILES.items():
            write(path_to(self.root, name), data)
        self.tools = path_to(self.root, "elsewhere")
        write(path_to(self.tools, "rt"), BUILDER.encode())
        os.chmod(path_to(self.tools, "rt"), 0o755)
        self.builds = path_to(self.tools, "builds")
        self.pack()
        self.pack_for_arm()

    def __enter__(self):
        return self

    def __exit__(self, *_):
        for folder, _, _ in os.walk(self.root):
            os.chmod(folder, 0o755)
        shutil.rmtree(self.root)

    def path(self, name):
        return path_to(self.root, name)

    def sources(self):
        script = '. "$root/tools/dev/sources.sh" && sum_of_sources'
        told = subprocess.check_output(["sh", "-c", script], env={**os.environ, "root": self.root}, text=True)
        return f"sources {told.strip()}"

    def record(self, name, lines):
        record = "".join(f"{line}\n" for line in lines).encode()
        write(self.path(name), record + f"record {hashlib.sha256(record).hexdigest()}\n".encode())

    def pack(self):
        """Packs the stand-in program as pack-program would."""
        lines = ["version 1.2.3", "kit some-kit logic 0", "glibc 2.34", self.sources()]
        self.record("dist/BUILT", [*lines, f"program {hashlib.sha256(PROGRAM).hexdigest()}"])
        write(self.path(PACKED), gzip.compress(PROGRAM, mtime=0))

    def pack_for_arm(self):
        """Packs a stand-in for the program for ARM64 as pack-targets would."""
        lines = ["version 1.2.3", "kit some-kit logic 0", self.sources(), "torchplan.wasm 0"]
        self.record("dist/TARGETS", [*lines, f"torchplan-aarch64-linux {hashlib.sha256(FOR_ARM).hexdigest()}"])
        write(self.path(PACKED_FOR_ARM), gzip.compress(FOR_ARM, mtime=0))

    def call_itself(self, system):
        """Has the system call itself so, by a stand-in for uname."""
        write(path_to(self.tools, "uname"), f"#!/bin/sh\necho '{system}'\n".encode())
        os.chmod(path_to(self.tools, "uname"), 0o755)
        os.remove(path_to(self.tools, "rt"))

    def start(self, *words, can_build=True, before=(), **settings):
        path = os.defpath if not can_build else os.pathsep.join([self.tools, os.defpath])
        settings = {"PATH": path, "BUILDS": self.builds, **settings}
        return subprocess.run([*before, self.path("torchplan"), *words], env=settings, capture_output=True, text=True)

    def forget(self):
        """Removes what earlier starts left."""
        shutil.rmtree(self.path("crates/torchplan/out"), ignore_errors=True)
        if os.path.exists(self.builds):
            os.remove(self.builds)

    def count_builds(self):
        if not os.path.exists(self.builds):
            return 0
        with open(self.builds) as file:
            return len(file.readlines())


class Launcher(unittest.TestCase):
    def assert_builds(self, here):
        """It runs what it builds, and without rt it says why it can't."""
        without = here.start("plan", can_build=False)
        self.assertEqual((without.returncode, without.stdout), (70, ""))
        self.assertIn("no rt is on the PATH", without.stderr)
        self.assertIn("dist/ was packed from other sources than these, or isn't whole", without.stderr)
        ran = here.start("plan")
        self.assertEqual((ran.returncode, ran.stdout), (0, "built plan\n"))
        self.assertEqual(here.count_builds(), 1)

    def test_runs_the_program_of_dist_and_says_so_once(self):
        with Checkout() as here:
            first = here.start("plan", "a b", can_build=False)
            line = "torchplan: using the program of dist/ (proved with some-kit; rt ci proves it again)\n"
            self.assertEqual((first.returncode, first.stdout, first.stderr), (0, "packed plan a b\n", line))
            second = here.start("check", can_build=False)
            self.assertEqual((second.stdout, second.stderr), ("packed check\n", ""))

    def test_builds_nothing_where_dist_is_current(self):
        with Checkout() as here:
            self.assertEqual(here.start("plan").stdout, "packed plan\n")
            self.assertEqual(here.count_builds(), 0)

    def test_touched_sources_are_no_changed_sources(self):
        with Checkout() as here:
            here.start("plan")
            os.utime(here.path("crates/low/src/lib.rt"))
            again = here.start("plan")
            self.assertEqual((again.stdout, again.stderr), ("packed plan\n", ""))
            self.assertEqual(here.count_builds(), 0)

    def test_what_the_program_does_not_stand_on_may_change(self):
        with Checkout() as here:
            change_byte(here.path("crates/other/src/lib.rt"), 5)
            change_byte(here.path("crates/low/must-fail/wrong.edit"), 5)
            self.assertEqual(here.start("plan").stdout, "packed plan\n")

    def test_a_changed_byte_of_any_source_builds(self):
        for name in SOURCES:
            with self.subTest(name), Checkout() as here:
                change_byte(here.path(name), -3)
                self.assert_builds(here)

    def test_a_source_that_is_new_or_renamed_builds(self):
        with Checkout() as here:
            write(here.path("crates/low/src/more.rt"), b"")
            self.assert_builds(here)
        with Checkout() as here:
            os.rename(here.path("crates/low/src/lib.rt"), here.path("crates/low/src/lob.rt"))
            self.assert_builds(here)

    def test_a_changed_byte_of_the_record_builds(self):
        with Checkout() as here:
            for at in range(3, os.path.getsize(here.path("dist/BUILT")), 29):
                with self.subTest(at):
                    here.pack()
                    here.forget()
                    change_byte(here.path("dist/BUILT"), at)
                    self.assert_builds(here)

    def test_a_changed_byte_of_the_program_builds(self):
        with Checkout() as here:
            for at in range(10, os.path.getsize(here.path(PACKED)), 7):  # gzip's head has 10 bytes
                with self.subTest(at):
                    here.pack()
                    here.forget()
                    change_byte(here.path(PACKED), at)
                    self.assert_builds(here)

    def test_sources_that_change_after_the_first_start_build(self):
        with Checkout() as here:
            here.start("plan")
            change_byte(here.path("crates/low/src/lib.rt"), 0)
            self.assert_builds(here)

    def test_a_source_that_changes_within_a_step_of_the_clock_builds(self):
        with Checkout() as here:
            started = time.time()
            here.start("plan")
            change_byte(here.path("crates/low/src/lib.rt"), 0)
            os.utime(here.path("crates/low/src/lib.rt"), (started, started))
            self.assert_builds(here)

    def test_what_was_built_is_run_before_dist(self):
        with Checkout() as here:
            change_byte(here.path("crates/low/src/lib.rt"), 0)
            self.assert_builds(here)
            here.pack()
            again = here.start("plan", can_build=False)
            self.assertEqual((again.stdout, again.stderr), ("built plan\n", ""))

    def test_a_program_that_does_not_run_here(self):
        with Checkout() as here:
            with unittest.mock.patch(f"{__name__}.PROGRAM", b"#!/no/such/shell\n"):
                here.pack()
            ran = here.start("plan", can_build=False)
            self.assertEqual((ran.returncode, ran.stdout), (70, ""))
            self.assertIn("it needs Linux on x86_64 (on Windows: in WSL) and glibc 2.34 or later", ran.stderr)

    def test_each_system_of_a_shared_checkout_runs_its_own_program(self):
        with Checkout() as here:
            self.assertEqual(here.start("plan").stdout, "packed plan\n")
            here.call_itself("Linux aarch64")
            first, second = here.start("plan"), here.start("check")
            self.assertEqual((first.returncode, first.stdout), (0, "for ARM plan\n"))
            self.assertEqual((second.stdout, second.stderr), ("for ARM check\n", ""))
            change_byte(here.path(PACKED_FOR_ARM), -9)
            here.forget()
            self.assertIn("no rt is on the PATH", here.start("plan").stderr)

    def test_a_system_that_dist_has_no_program_for(self):
        with Checkout() as here:
            here.call_itself("Darwin arm64")
            ran = here.start("plan")
            self.assertEqual((ran.returncode, ran.stdout), (70, ""))
            self.assertEqual(ran.stderr, "torchplan: it needs Linux on x86_64 (on Windows: in WSL) or on ARM64;"
                             " this is Darwin arm64\n")

    def test_many_launchers_at_once(self):
        with Checkout() as here:
            ran = []
            many = [threading.Thread(target=lambda: ran.append(here.start("plan", can_build=False))) for _ in range(6)]
            for one in many:
                one.start()
            for one in many:
                one.join()
            self.assertEqual([one.stdout for one in ran], ["packed plan\n"] * 6)
            self.assertEqual(sum("using the program of dist/" in one.stderr for one in ran), 1)
            left = os.listdir(here.path("crates/torchplan/out/unpacked"))
            self.assertEqual(sorted(left), ["sources", "torchplan"])

    @unittest.skipIf(os.geteuid() == 0 and not shutil.which("setpriv"), "root writes everywhere")
    def test_a_checkout_that_cannot_be_written(self):
        as_nobody = ["setpriv", "--reuid=65534", "--regid=65534", "--clear-groups"] if os.geteuid() == 0 else []
        with Checkout() as here, tempfile.TemporaryDirectory() as room:
            os.chmod(room, 0o777)
            for folder, _, _ in os.walk(here.root):
                os.chmod(folder, 0o555)
            ran = here.start("plan", can_build=False, before=as_nobody, TMPDIR=room)
            self.assertEqual((ran.returncode, ran.stdout, ran.stderr), (0, "packed plan\n", ""))
            self.assertEqual(os.listdir(room), [])


if __name__ == "__main__":
    unittest.main()

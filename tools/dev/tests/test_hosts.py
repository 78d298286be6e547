"""Pieces of an area that are planned on other machines, with a program in the place of GNU parallel that does here what
it would have them do; tools/dev/try-hosts has real ones."""
import base64
import io
import os
import signal
import subprocess
import sys
import time
import unittest
import unittest.mock
import zipfile

import paths
import parcels
from refusals import Refusal
from repository import TOP
from saved_worlds import V1_21, Saved
from test_light import SCRIPT, Commands, room

# Writes down its words, and runs the last for each line.
PARALLEL = """#!/bin/sh
[ "$1" != --version ] || {{ echo GNU parallel 20221122; exit; }}
echo "$*" >>'{folder}/words'
for command; do :; done
while read -r line; do
    printf '%s\\n' "$line" | HOME='{folder}' sh -c "$command" || echo "$?" >>'{folder}/words'
done
"""
WORDS = ["--from", "2", "3", "4", "--to", "206", "6", "6"]
PLACE = "My World_2_3_4_to_206_6_6-torches"


class Parcels(unittest.TestCase):
    def test_files_come_out_as_they_went_in(self):
        files = {"plan.txt": b"torches 0\n", "x": bytes(range(256)) * 9, "empty": b""}
        line = parcels.packed("00ff", files)
        self.assertEqual((line.count(b"\n"), line[-1:]), (1, b"\n"))
        self.assertEqual(parcels.opened(line), ("00ff", files))

    def test_other_lines(self):
        line = parcels.packed("a", {"x": b"x" * 99})
        whole = io.BytesIO()
        with zipfile.ZipFile(whole, "w") as archive:
            archive.writestr("../x", "y")
        folder = b"a " + base64.b64encode(whole.getvalue())
        for other in (b"", b"a\n", b"a b\n", line[:-9] + b"\n", line[2:], folder):
            self.assertRaises(Refusal, parcels.opened, other)


class OnHosts(Commands):
    """An area of two rooms, each of which is planned on a host."""

    def setUp(self):
        super().setUp()
        self.world = os.path.join(self.tools, "My World")
        block = lambda x, y, z: room(x - 2, y - 3, z - 4) if x < 100 else room(x - 202, y - 3, z - 4)
        Saved(self.world, version=V1_21).fill(block, [0], [(x, z) for x in range(-1, 14) for z in (-1, 0, 1)], V1_21)
        self.answers["plan"] = {"out": "torches 1\ndark 3\nT 2 1 1 floor\n", "proof": "p"}
        os.symlink(TOP, os.path.join(self.tools, "torchplan"))
        self.put_parallel(PARALLEL.format(folder=self.tools))
        found = unittest.mock.patch.dict(os.environ, {"PATH": f"{self.tools}:{os.environ['PATH']}"})
        found.start()
        self.addCleanup(found.stop)

    def put_parallel(self, text):
        path = os.path.join(self.tools, "parallel")
        with open(path, "w", encoding="utf-8") as file:
            file.write(text)
        os.chmod(path, 0o755)

    def words(self):
        with open(os.path.join(self.tools, "words"), encoding="utf-8") as file:
            return file.read().splitlines()

    def files(self):
        """The area's files, but for README.txt, which tells the command."""
        found = {}
        for place, _, names in os.walk(self.path(PLACE)):
            for name in set(names) - {"README.txt"}:
                path = os.path.join(place, name)
                with open(path, "rb") as file:
                    found[os.path.relpath(path, self.path(PLACE))] = file.read()
        return found

    def test_files_are_those_of_a_run_without_hosts(self):
        self.run_light("--world", self.world, *WORDS)
        due = self.files()
        out, err = self.run_light("--world", self.world, *WORDS, "--hosts", "one,me@two", "--jobs", "3", "--force")
        self.assertEqual(err, "light: 2 caves lie apart, in 2 pieces to plan\n")
        self.assertEqual(self.files(), due)
        self.assertEqual(len(due), 2 * 9 + 3)
        words, = self.words()
        self.assertIn("--sshlogin one,me@two --jobs 3 --joblog +", words)

    def test_a_host_is_told_where_one_gets_to_and_which_torches_may_go(self):
        def block(x, y, z):
            if (x, y, z) in ((3, 4, 5), (205, 4, 5)):
                return "minecraft:torch", {}
            return room(x - 2, y - 3, z - 4) if x < 100 else room(x - 202, y - 3, z - 4)

        Saved(self.world, version=V1_21).fill(block, [0], [(x, z) for x in range(-1, 14) for z in (-1, 0, 1)], V1_21)
        for words in (["--walk", "4", "4", "5"], ["--walk", "4", "4", "5", "--reachable"], ["--move"]):
            out, err = self.run_light("--world", self.world, *WORDS, *words, "--force")
            due, said = self.files(), (out.splitlines()[:-1], err)
            out, err = self.run_light("--world", self.world, *WORDS, *words, "--hosts", "one", "--force")
            self.assertEqual((out.splitlines()[:-1], err), said)
            found = self.files()
            self.assertEqual([name for name in {**due, **found} if found.get(name) != due.get(name)], [])

    def test_how_far_the_run_is_is_told(self):
        out, err = self.run_light("--world", self.world, *WORDS, "--hosts", "one", "--progress")
        self.assertEqual(err.splitlines()[1:3], ["light: 1 of 2 pieces", "light: 2 of 2 pieces"])

    def test_the_log_is_kept(self):
        text = PARALLEL.replace("echo \"$*\"", "echo a log >\"${{6#+}}\"; echo \"$*\"")
        self.put_parallel(text.format(folder=self.tools))
        self.run_light("--world", self.world, *WORDS, "--hosts", "one")
        self.assertEqual(self.text(PLACE, "pieces", "log"), "a log\n")
        self.assertIn("\npieces/log  which machine planned", self.text(PLACE, "README.txt"))

    def test_a_piece_that_fails_is_named_and_tried_again(self):
        self.answers["plan"]["first"] = "echo 'torchplan: cannot write' >&2; exit 6"
        out, err = self.run_light("--world", self.world, *WORDS, "--hosts", "one", status=1)
        self.assertRegex(err, r"\nlight: --from 3 4 5 --to 5 5 5: \S+: torchplan: cannot write\n")
        self.assertIn(f"1 piece of 2 failed; the others are kept in {PLACE}.pieces: the same", err)
        self.assertEqual(self.words()[1:], ["1"])
        del self.answers["plan"]["first"]
        self.run_light("--world", self.world, *WORDS, "--hosts", "one")
        self.assertEqual([call[0] for call in self.calls()].count("plan"), 1)
        self.assertEqual(sorted(os.listdir(self.folder)), [PLACE, "room.nbt"])

    def test_machines_that_answer_nothing_or_something_else(self):
        for command, told in [
            ("true", "--from 203 4 5 --to 205 5 5: no host planned it"),
            ("echo no such command", "a host answers otherwise than plan-piece: it is no line of files"),
        ]:
            self.put_parallel(PARALLEL.format(folder=self.tools).replace('sh -c "$command"', command))
            out, err = self.run_light("--world", self.world, *WORDS, "--hosts", "one", status=1)
            self.assertIn(f"light: {told}\n", err)
            self.assertIn("2 pieces of 2 failed", err)

    def test_a_host_with_another_torchplan_plans_nothing(self):
        for what in ("piece_jobs.sum_of_scripts", "lighting.Program.version"):
            with unittest.mock.patch(what, lambda *_: "another"):
                out, err = self.run_light("--world", self.world, *WORDS, "--hosts", "one", status=1)
            self.assertEqual(err.count("torchplan is another than where the area is planned: take the same commit"), 2)

    def test_ctrl_c_ends_parallel(self):
        waits = f"echo $$ >'{self.tools}/begun'; exec sleep 99; while"
        self.put_parallel(PARALLEL.format(folder=self.tools).replace("while", waits))
        self.prepare()
        words = [sys.executable, SCRIPT, "--world", self.world, *WORDS, "--hosts", "one"]
        child = subprocess.Popen(words, stdout=subprocess.PIPE, stderr=subprocess.PIPE, text=True,
                                 preexec_fn=lambda: signal.signal(signal.SIGINT, signal.SIG_DFL))
        begun = os.path.join(self.tools, "begun")
        while not os.path.exists(begun) or not os.path.getsize(begun):
            self.assertIsNone(child.poll())
            time.sleep(0.05)
        child.send_signal(signal.SIGINT)
        out, err = child.communicate(timeout=30)
        self.assertEqual((child.returncode, out, err.splitlines()[-1]), (130, "", "light: stopped"))
        with open(begun, encoding="utf-8") as file:
            self.assertRaises(ProcessLookupError, os.kill, int(file.read()), 0)

    def test_ctrl_c_before_any_host_answers(self):
        self.put_parallel(PARALLEL.format(folder=self.tools).replace("while", "exec sleep 9; while"))
        with unittest.mock.patch("program.select.select", side_effect=[([], [], []), KeyboardInterrupt]):
            out, err = self.run_light("--world", self.world, *WORDS, "--hosts", "one", status=130)
        self.assertEqual(err.splitlines()[-1], "light: stopped")

    def test_without_gnu_parallel(self):
        told = "light: --hosts takes GNU parallel, which isn't installed here"
        words = ["--world", self.world, *WORDS, "--hosts", "one"]
        self.put_parallel("#!/bin/sh\necho parallel of moreutils\n")
        self.assertEqual(self.refused(*words, status=6), told)
        with unittest.mock.patch("hosts.subprocess.run", side_effect=FileNotFoundError):
            self.assertEqual(self.refused(*words, status=6), told)


if __name__ == "__main__":
    unittest.main()

"""The programs of earlier versions, as git's history of dist/ has them, for the scripts beside this file."""
import gzip
import os
import subprocess

from repository import TOP

BUILT, PROGRAM = "dist/BUILT", "dist/torchplan-x86_64-linux.gz"


def of_git(*words):
    return subprocess.run(["git", "-C", TOP, *words], check=True, capture_output=True).stdout


def commits():
    """For each version the last commit that packed its program, the newest version first."""
    found = {}
    for commit in of_git("log", "--format=%h", "--", PROGRAM).decode().split():
        version = of_git("show", f"{commit}:{BUILT}").decode().split("\n")[0].removeprefix("version ")
        found.setdefault(version, commit)
    return found


def unpack(commit, path):
    """Leaves the program that a commit has at this path."""
    with open(path, "wb") as file:
        file.write(gzip.decompress(of_git("show", f"{commit}:{PROGRAM}")))
    os.chmod(path, 0o755)

"""The toolchain, as the scripts beside this file need it: where it lies, and its own compiler and linker."""
import os
import shutil
import subprocess
import sys

TOP = os.path.dirname(os.path.dirname(os.path.dirname(os.path.abspath(__file__))))
HERE = os.path.dirname(os.path.abspath(__file__))
SYSTEM = os.path.join(HERE, "system")


class Lacking(Exception):
    """What a target needs and this machine hasn't, in one line."""


def folder():
    """The toolchain's folder, that of `rt`."""
    rt = shutil.which("rt")
    if rt is None:
        raise Lacking("no rt is on the PATH")
    return os.path.dirname(os.path.dirname(os.path.realpath(rt)))


def program(name):
    """The path of one of the toolchain's own programs: clang, ld.lld."""
    return os.path.join(folder(), "toolchain", "bin", name)


def need(*names):
    """Refuses where one of these programs isn't on the PATH."""
    for name in names:
        if shutil.which(name) is None:
            raise Lacking(f"no {name} is on the PATH")


def run(*words):
    """Runs a command, which has to end well."""
    ran = subprocess.run(words, stdout=subprocess.PIPE, stderr=subprocess.STDOUT, text=True, errors="replace")
    if ran.returncode:
        sys.exit(f"{ran.stdout}{os.path.basename(words[0])} failed: {' '.join(words)}")
    return ran.stdout


def clang(*words):
    return run(program("clang"), "--no-default-config", *words)

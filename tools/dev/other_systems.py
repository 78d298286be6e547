"""How the programs for other systems are run on this machine: a page's by node, that of Windows by wine, those for other
processors by qemu."""
import contextlib
import os
import shutil
import subprocess
import tempfile

from repository import TOOLS

RUN_WASM = os.path.join(TOOLS, "targets", "run-wasm.mjs")
# Each program that tools/targets/build makes and that can be run, and the words before its path.
WAYS = {
    "torchplan.wasm": ["node", RUN_WASM],
    "torchplan.exe": ["wine"],
    "torchplan-aarch64-linux": ["qemu-aarch64"],
    "torchplan-x86_64-linux-static": [],
}


def lacking(name):
    """What this machine has not to run a program; None where it has all."""
    return next((word for word in WAYS[name][:1] if shutil.which(word) is None), None)


@contextlib.contextmanager
def own_wine(names):
    """A folder of wine's for the runs within, which is gone with all that wine has started there; nothing where none of
    the programs needs wine. One of wine's own programs waits all the time: else wine's services would begin and end
    with each run, and write to its streams."""
    if not any(WAYS.get(name) == ["wine"] for name in names) or shutil.which("wine") is None:
        yield
        return
    nowhere = {"stdout": subprocess.DEVNULL, "stderr": subprocess.DEVNULL}
    with tempfile.TemporaryDirectory() as room:
        os.environ.update(WINEPREFIX=os.path.join(room, "wine"), WINEDEBUG="-all")
        subprocess.run(["wineboot", "--init"], **nowhere)
        waiting = subprocess.Popen(["wine", "cmd", "/c", "pause"], stdin=subprocess.PIPE, **nowhere)
        try:
            yield
        finally:
            waiting.stdin.close()
            waiting.wait()
            subprocess.run(["wineserver", "-k"], stderr=subprocess.DEVNULL)
            subprocess.run(["wineserver", "-w"], stderr=subprocess.DEVNULL)

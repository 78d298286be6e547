"""The programs for other systems that lie packed in dist/, as pack-targets packs them."""
import base64
import gzip
import io
import os
import re
import zipfile

from repository import TOP

DIST = os.path.join(TOP, "dist")
PAGE, WINDOWS, ARM = "torchplan.html", "torchplan-x86_64-windows.zip", "torchplan-aarch64-linux.gz"
# Where each program that tools/targets/build makes is packed.
PACKED = {"torchplan.wasm": PAGE, "torchplan.exe": WINDOWS, "torchplan-aarch64-linux": ARM}


def read(path):
    with open(path, "rb") as file:
        return file.read()


def piece(name, page):
    """What stands in an element of the page."""
    return re.search(f'<script id="{name}" type="text/plain">([^<]*)</script>', page)[1]


def unpacked(name):
    """The program that dist/ has; None where it isn't there."""
    path = os.path.join(DIST, PACKED[name])
    if not os.path.exists(path):
        return None
    data = read(path)
    if name == "torchplan.wasm":
        return gzip.decompress(base64.b64decode(piece("program", data.decode())))
    if name == "torchplan.exe":
        with zipfile.ZipFile(io.BytesIO(data)) as archive:
            return archive.read("torchplan.exe")
    return gzip.decompress(data)


def unpack_into(folder):
    """Leaves the programs of dist/ in a folder, as they were built."""
    for name in PACKED:
        data = unpacked(name)
        if data is not None:
            path = os.path.join(folder, name)
            with open(path, "wb") as file:
                file.write(data)
            os.chmod(path, 0o755)

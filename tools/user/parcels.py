"""Files in one line of text, under a name: what goes to another machine, and what comes back."""
import base64
import io
import os
import zipfile
import zlib

from refusals import damaged


def packed(name, files):
    """The line of files, which are told by their names and bytes."""
    whole = io.BytesIO()
    with zipfile.ZipFile(whole, "w", zipfile.ZIP_DEFLATED) as archive:
        for file, data in files.items():
            archive.writestr(file, data)
    return name.encode() + b" " + base64.b64encode(whole.getvalue()) + b"\n"


def opened(line):
    """The name and the files of a line."""
    name, _, data = line.rstrip(b"\n").partition(b" ")
    try:
        with zipfile.ZipFile(io.BytesIO(base64.b64decode(data, validate=True))) as archive:
            files = {file: archive.read(file) for file in archive.namelist()}
    except (ValueError, EOFError, NotImplementedError, zlib.error, zipfile.BadZipFile):
        raise damaged("it is no line of files") from None
    if any(os.path.basename(file) != file for file in files):
        raise damaged("a file of it has a folder in its name")
    return name.decode("ascii", "replace"), files

"""The folder that is made: it comes to its place whole, or not at all."""
import os
import shutil
import tempfile
from contextlib import contextmanager

from refusals import FAILED, Refusal, unwritable
from signals import undisturbed

# All that such a folder may have, beside the torches' files, which begin with the cave's name.
OURS = {
    "README.txt", "cave.nbt", "index.html", "plan.check", "plan.proof", "pieces", "plan.txt", "table.toml",
    "unknown.toml",
}
TORCHES = ("-torches.litematic", "-torches.nbt", "-torches.zip")
# A table for the owner to look over: it is no plan, and stays where a plan comes.
KEPT = "unknown.toml"


def is_ours(name):
    return name in OURS or name.endswith(TORCHES)


def require_parent(folder):
    """Refuses what is no folder to make another in."""
    if not os.path.isdir(folder):
        raise Refusal(f"{folder} is no folder", FAILED)
    if not os.access(folder, os.W_OK | os.X_OK):
        raise Refusal(f"cannot write in {folder}", FAILED)


def require_place(place, is_forced):
    """Refuses a place that is taken, unless it is forced and has nothing but what is made here."""
    if not os.path.lexists(place):
        return
    if os.path.islink(place) or not os.path.isdir(place):
        raise Refusal(f"{place} is no folder")
    there = sorted(os.listdir(place))
    if not is_forced and there != [KEPT]:
        raise Refusal(f"{place} is there already: --force writes it anew")
    others = [name for name in there if not is_ours(name)]
    if others:
        raise Refusal(f"{place} has what isn't made here: {others[0]}")


def put(folder, name, data):
    """Writes a file of the folder; its path."""
    path = os.path.join(folder, name)
    try:
        with open(path, "wb") as file:
            file.write(data)
    except OSError as fault:
        raise unwritable(name, fault) from None
    return path


def put_table(place, data):
    """Writes the table of unknown blocks into the folder at that place, which stays as it is but for that; its path."""
    try:
        os.makedirs(place, exist_ok=True)
    except OSError as fault:
        raise unwritable(place, fault) from None
    return put(place, KEPT, data)


@contextmanager
def new_folder(place, is_forced):
    """A folder to fill, beside its place until all went well, and gone where it didn't."""
    require_place(place, is_forced)
    parent, name = os.path.split(os.path.abspath(place))
    try:
        folder = tempfile.mkdtemp(prefix=f".{name}.", dir=parent)
    except OSError as fault:
        raise unwritable(f"in {parent}", fault) from None
    try:
        yield folder
        mask = os.umask(0)
        os.umask(mask)
        os.chmod(folder, 0o777 & ~mask)
        require_place(place, is_forced)
        with undisturbed():
            put_in_place(folder, place)
    except BaseException:
        with undisturbed():
            shutil.rmtree(folder, ignore_errors=True)
        raise


def put_in_place(folder, place):
    """Renames a folder to its place; what stood there goes, but for a table of unknown blocks."""
    if not os.path.lexists(place):
        os.rename(folder, place)
        return
    kept = os.path.join(place, KEPT)
    if os.path.lexists(kept):
        shutil.copyfile(kept, os.path.join(folder, KEPT))
    parent, name = os.path.split(os.path.abspath(place))
    old = tempfile.mkdtemp(prefix=f".{name}.", dir=parent)
    os.rename(place, os.path.join(old, name))
    os.rename(folder, place)
    shutil.rmtree(old, ignore_errors=True)

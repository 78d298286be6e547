"""Files and folders that are no cave, named for what they are."""
import os

from chunks import held
from nbt_writer import COMPOUND
from refusals import Refusal

MCA = (".mca", ".mcr", ".mcc")
BEDROCK = (".mcworld", ".mcstructure", ".mctemplate")
ZIP = b"PK\x03\x04"


def of_file(path, data):
    """What the bytes of a file are where they are no NBT, or None."""
    lower = path.lower()
    if lower.endswith(BEDROCK):
        return "a file of Bedrock Edition, which isn't read"
    if lower.endswith(MCA):
        return "a region file of a world: use --world FOLDER"
    if data[:4] == ZIP:
        return "a zip archive: unpack it, and name a file in it, or a world's folder by --world"
    return None


def of_root(root):
    """What a file of NBT is by its root where it is no cave, or None."""
    try:
        inner = held(root, b"Data", COMPOUND) or {}
    except Refusal:
        inner = {}
    if b"LevelName" in inner or b"Player" in inner or b"WorldGenSettings" in inner:
        return "a world's file: use --world FOLDER"
    if b"xPos" in root or b"sections" in root:
        return "a chunk of a world: use --world FOLDER"
    if b"Pos" in root and b"Inventory" in root:
        return "a player's file: use --world FOLDER"
    return None


def worlds_in(folder):
    """The names of the worlds that lie in a folder."""
    if not os.path.isdir(folder):
        return []
    return sorted(name for name in os.listdir(folder) if os.path.isfile(os.path.join(folder, name, "level.dat")))


def of_world(folder):
    """What a path is where it is no folder of a world of Java Edition, or None."""
    if os.path.isfile(folder):
        if os.path.basename(folder) == "level.dat":
            return f"is a file of a world: name its folder, {os.path.dirname(folder) or '.'}"
        return "is a file: name the folder of a world" + (", unpacked" if folder.endswith((".zip", ".mcworld")) else "")
    if os.path.isdir(os.path.join(folder, "db")) and not os.path.isdir(os.path.join(folder, "region")):
        return "is a world of Bedrock Edition, which isn't read"
    for inner in ("saves", ""):
        names = worlds_in(os.path.join(folder, inner)) if folder else []
        if names and not os.path.isfile(os.path.join(folder, "level.dat")):
            listed = ", ".join(os.path.join(inner, name) for name in names[:5]) + ", .." * (len(names) > 5)
            return f"is no world: name one of those in it ({listed})"
    if os.path.isdir(folder) and any(name.endswith(MCA) for name in os.listdir(folder)):
        return "has the region files of a world: name the world's folder, which has level.dat"
    return None

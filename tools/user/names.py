"""What functions, structures and files of a cave are called after it."""
import hashlib
import re

LONGEST = 60
LOST = re.compile(r"[^a-z0-9_. -]")
OTHERS = re.compile(r"[^a-z0-9_-]+")


def plain(name):
    """A name in the letters that functions, structures and tags may have (Minecraft Wiki, "Resource location"). Where
    letters of it are lost, four digits of its sum keep it apart from others."""
    lower = name.lower()
    found = OTHERS.sub("_", lower)[:LONGEST] or "cave"
    if LOST.search(lower) or len(lower) > LONGEST:
        found += "-" + hashlib.sha256(name.encode("utf-8", "surrogatepass")).hexdigest()[:4]
    return found

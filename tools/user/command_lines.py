"""The command line of `light`."""
import argparse
import math
import re
import shlex

import dimensions
from refusals import USAGE, printable

USE = """light [options] FILE
       light [options] --world SAVE [--around X Y Z]
       light [options] --world SAVE --from X Y Z --to X Y Z
       light --serve FOLDER"""
WHAT = "Plans the fewest torches for a cave, as the game saved it, and writes all that helps to place them."
MORE = """
FILE is a structure file (.nbt), packed by gzip as the game saves it, or not, or a schematic of Litematica (.litematic)
or WorldEdit (.schem, of Sponge's versions 2 and 3). SAVE is the folder of a world of Java Edition 1.16 or later. Leave
the world first, so that all is saved; nothing is written to it. What stands around a box of a world counts: light from
outside, and floor, walls and room beside it. --around takes 76 x 40 x 76 about the point, with 16 layers below it, or
as much of that as the world's heights and its finished chunks allow; --world alone goes around the player. Coordinates
may be as F3 shows them, -12.500 64.00000 8.300, or joined by commas.

A box has sides up to 126, and up to 262,144 cells with one layer more on each side. A larger area is planned in pieces:
caves that no light crosses between are planned whole, one that doesn't fit is cut, and its number isn't proved to be
the least. What was planned is kept in NAME-torches.pieces until all is: a run that was stopped goes on from there.

The folder NAME-torches has index.html (a map with a list to tick off), NAME-torches.zip (a data pack that places the
torches, takes them away, and shows or hides where they belong), NAME-torches.litematic, NAME-torches.nbt, plan.txt,
plan.proof with plan.check (what the checker said of it), and README.txt. In the names of the pack's functions and of
the last files NAME is in small letters.

Of all plans with the fewest torches one with a bright light is chosen, and the list is a short walk. --move plans as if
the torches that stand there didn't, and tells which of them to take away. --walk, --only and --not are by the
coordinates of the world, or of the structure; what they leave out doesn't count, and the plan of the rest has the
fewest torches. A cell that no torch can light is named, and planned as if a slab lay there.

The search of a box ends within some two minutes. --turns N sets how far it goes, --to-the-end lets it finish. A plan
that was stopped is safe, but may have more torches than needed: it has no proof, and the status is 5. Each status is
that of torchplan (README.md). The variable TORCHPLAN names the program; without it the launcher beside tools/ is
run."""
OTHER_DIMENSION = (
    "mobs of other dimensions than the Overworld spawn at other levels: tell by --rule which one to plan by all the"
    " same"
)


NUMBER = re.compile(r"[+-]?[0-9]{1,9}(\.[0-9]*)?", re.ASCII)
# The options that have coordinates, and how many.
POINTS = {"--from": 3, "--to": 3, "--around": 3, "--walk": 3, "--only": 6, "--not": 6, "--chunks": 4}


class Words(argparse.ArgumentParser):
    """A command line whose faults are one line."""

    def error(self, message):
        self.exit(USAGE, f"light: {printable(message)}\n")


def number_in(low, high):
    """The reader of a number within these limits."""

    def number(word):
        if not (word.isascii() and word.isdigit() and low <= int(word) <= high):
            raise argparse.ArgumentTypeError(f"{word!r} is no number from {low} to {high}")
        return int(word)

    return number


def coordinate(word):
    """The coordinate of the block that has a point (Minecraft Wiki, "World boundary")."""
    if not NUMBER.fullmatch(word) or abs(float(word)) > 30_000_000:
        raise argparse.ArgumentTypeError(f"{word!r} is no coordinate of a block")
    return math.floor(float(word))


def spread(given):
    """The words of a command line, in which the numbers of a point stand apart, however they are joined."""
    found, left = [], 0
    for word in given:
        name, equals, rest = word.partition("=")
        if word.startswith("--"):
            left = POINTS.get(name, 0)
            found.append(name if left else word)
            word = rest if left and equals else ""
        elif not left:
            found.append(word)
            word = ""
        pieces = re.split(r"[,/\s]+", word.strip(" ,/"))
        pieces = [piece for piece in pieces if piece]
        found += pieces
        left -= len(pieces)
    return found


def parser():
    """All that a command line may say."""
    words = Words("light", USE, WHAT, MORE, formatter_class=argparse.RawDescriptionHelpFormatter, allow_abbrev=False)
    point = {"nargs": 3, "type": coordinate, "metavar": ("X", "Y", "Z")}
    words.add_argument("file", nargs="?", metavar="FILE", help="a structure file or a schematic")
    words.add_argument("--serve", metavar="FOLDER", help="show a folder that was made to a phone in the same network")
    words.add_argument("--world", metavar="SAVE", help="the folder of a saved world")
    words.add_argument("--from", dest="one", **point, help="a corner of the box")
    words.add_argument("--to", dest="other", **point, help="the opposite corner")
    words.add_argument("--around", **point, help="the largest box about a point (the player)")
    words.add_argument("--radius", type=number_in(1, 10_000), metavar="R", help="R blocks about that point")
    words.add_argument("--chunks", nargs=4, type=coordinate, metavar=("X", "Z", "X2", "Z2"),
                       help="all between two chunks, in the whole height of the world")
    words.add_argument("--dimension", type=dimensions.named, metavar="NAME",
                       help="overworld, nether, end, or name:space (where the player is, or overworld)")
    words.add_argument("--walk", **point, help="where one walks from (the point of --around): torches that light only"
                       " cells where nobody gets to are listed apart")
    words.add_argument("--reachable", action="store_true", help="let cells stay dark that nobody gets to from there")
    corners = "X", "Y", "Z", "X2", "Y2", "Z2"
    box = {"nargs": 6, "type": coordinate, "action": "append", "metavar": corners, "default": []}
    words.add_argument("--only", **box, help="a box whose cells matter; may be told again, others may stay dark")
    words.add_argument("--not", dest="barred", **box, help="a box in which no torch is placed; may be told again")
    words.add_argument("--into", metavar="FOLDER", default=".", help="where to make the folder NAME-torches (here)")
    words.add_argument("--force", action="store_true", help="replace that folder if it exists")
    rules = "the game's rule (1.17 for a world from before 1.18); the Nether and the End have none of their own"
    words.add_argument("--rule", choices=["1.18", "1.17"], help=rules)
    words.add_argument("--headroom", choices=["1", "2"], default="2", help="free cells that a mob needs (2)")
    table = "TOML: rows [[row]] go before those of the vanilla table, a list row = [..] goes in its place"
    words.add_argument("--table", help=table)
    words.add_argument("--steady", action="store_true", help="count lights that go out while their block stays")
    jobs = "how many pieces of an area are planned at once (1)"
    words.add_argument("--jobs", type=number_in(1, 64), metavar="N", default=1, help=jobs)
    hosts = "other machines on which they are planned, by GNU parallel: each has a checkout torchplan in its home folder"
    words.add_argument("--hosts", metavar="ONE,TWO", help=hosts)
    words.add_argument("--workers", type=number_in(1, 64), metavar="N", help="how many workers share a search (1)")
    ends = words.add_mutually_exclusive_group()
    ends.add_argument("--turns", type=number_in(1, 10**9), metavar="N", help="how many nodes of each region to search")
    ends.add_argument("--to-the-end", action="store_true", help="search until the number is proved to be the least")
    words.add_argument("--as-planned", action="store_true", help="leave torches where the search puts them, if darker")
    words.add_argument("--move", action="store_true", help="plan as if no torch stood there: some may go, others stay")
    words.add_argument("--progress", action="store_true", help="say how the search gets on, as at a terminal")
    return words


def parsed(given):
    """The words of the command line, which name a structure file or a box of a world."""
    words = parser()
    told = words.parse_args(spread(given))
    places = [told.one, told.around, told.chunks]
    if told.file is not None and (told.world is not None or any(places) or told.other or told.dimension or told.radius):
        words.error("a structure file has no --world, --from, --to, --around, --radius, --chunks or --dimension")
    if told.serve is not None:
        if given[:1] != ["--serve"] or len(given) != 2:
            words.error("--serve FOLDER stands alone")
        return told
    if told.file is None and told.world is None:
        words.error("name a structure file, or a world by --world (see --help)")
    if bool(told.one) != bool(told.other) or sum(map(bool, places)) > 1:
        words.error("a box of a world is told by --from X Y Z --to X Y Z, by --around X Y Z, or by --chunks X Z X2 Z2")
    if told.radius and (told.one or told.chunks):
        words.error("--radius goes about the point of --around, or about the player")
    if told.reachable and told.walk is None and (told.file is not None or told.one or told.chunks):
        words.error("--reachable goes from a point: name it by --walk X Y Z")
    if told.dimension not in (None, dimensions.OVERWORLD) and told.rule is None:
        words.error(OTHER_DIMENSION)
    told.command = shlex.join(["light", *given])
    return told

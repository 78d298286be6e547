"""The folder of a plan: the page, the data pack, the files of the torches alone, and what is what."""
import names
import page
import packs
import schematics
import torches
from folders import put

PROOF = "; plan.proof shows that no fewer do, and plan.check what the checker said of it"
WIDEST = 48  # side of a structure that a structure block loads (Minecraft Wiki, "Structure Block")


def write(folder, box, plan, dark, levels, verdict, told, notes=()):
    """Writes a plan's files into an empty folder.

    dark     the cells that were dark before
    levels   the level of light of each cell with the torches
    verdict  what `check` printed of the proof, or None where the search was stopped
    told     each where it is known: "command", "rule", "headroom", "table", "version" (texts for README.txt), "files",
             what other files of the folder are by their names; "away", places whose torches are taken away, and
             "total", how many torches stand in the end, where the plan's are those to place; "apart", how many of them,
             the last, light only what nobody gets to
    notes    what has to be known beside the plan, in lines
    """
    name, away = f"{names.plain(box.name)}-torches", told.get("away", ())
    more = {word: told[word] for word in ("away", "total", "apart") if word in told}
    texts = {
        "index.html": page.page(box, plan, dark, levels, verdict, notes=notes, **more),
        "README.txt": "".join(line + "\n" for line in readme(box, plan, verdict, told, notes)),
    }
    files = {
        **{name: text.encode("utf-8", "replace") for name, text in texts.items()},
        f"{name}.zip": packs.pack(box, plan, away),
        f"{name}.litematic": schematics.litematic(box, plan),
        f"{name}.nbt": schematics.structure(box, plan),
    }
    for name, data in files.items():
        put(folder, name, data)


def words(numbers):
    return " ".join(map(str, numbers))


def place(box, offset=(0, 0, 0)):
    """A position of the box: the world's coordinates, or those of the corner, which are X Y Z, with what is added."""
    if box.corner is not None:
        return words(at + more for at, more in zip(box.corner, offset))
    return " ".join(f"{axis}+{more}" if more else axis for axis, more in zip("XYZ", offset))


def readme(box, plan, verdict, told, notes):
    """The lines of README.txt."""
    away = told.get("away", ())
    name = "".join(letter if letter.isprintable() else "?" for letter in box.name) or "a cave"
    total = told.get("total", len(plan.torches))
    yield f"Torches for {name}: {counted(total, plan.at_least, verdict)}"
    yield f"The corner is the lowest north-west corner of the planned box{corner(box)}."
    if away or total > len(plan.torches):
        yield f"Take away {len(away)} that stand there, place {len(plan.torches)}{':' if away else '.'}"
        yield from (f"  take away {place(box, at)}" for at in away)
    yield from notes
    yield ""
    yield from columns(files(box, plan, verdict, told.get("files", {})))
    yield from how(told)


def files(box, plan, verdict, others):
    """What the files of the folder are: the lines of each by its name."""
    low, size = torches.bounds(plan.torches)
    at, name = place(box, low), f"{names.plain(box.name)}-torches"
    structure = [f"for a structure block (in SAVE/generated/minecraft/structures): load it at {at}"]
    if max(size) > WIDEST:
        structure.append(f"it is {' x '.join(map(str, size))}, more than a structure block loads:")
        structure.append(f"/place template minecraft:{name} {at} (1.19 and later)")
    return {
        "index.html": ["the map and the list, for a browser; needs no network"],
        "plan.txt": [f"the plan as text{PROOF if verdict else ''}"],
        f"{name}.zip": list(pack_lines(box, plan)),
        f"{name}.litematic": [f"for Litematica (in .minecraft/schematics): set the placement's origin to {place(box)}"],
        f"{name}.nbt": structure,
        **{name: [what] for name, what in others.items()},
    }


def columns(told):
    """Names, and behind each its lines."""
    wide = max(map(len, told))
    for name, lines in told.items():
        for line in lines:
            yield f"{name:{wide}} {line}"
            name = ""


def counted(total, at_least, verdict):
    """How many torches, and what is known of fewer."""
    if not total:
        return "none is needed."
    count = torches.load(total)
    if at_least is not None:
        least = f"{at_least} {'is' if at_least == 1 else 'are'} needed"
        return f"{count}, safe; at least {least}, and more time may find fewer."
    return f"{count}, and no fewer do{f' (check: {verdict})' if verdict else ''}."


def corner(box):
    if box.corner is None:
        return ", where the structure was saved: X Y Z are its coordinates"
    return f": {words(box.corner)}{f' in {box.dimension}' if box.dimension else ''}"


def pack_lines(box, plan):
    """How to use the data pack; of a long plan in parts, which are run by hand where they aren't scheduled."""
    name = f"{packs.NAMESPACE}:{names.plain(box.name)}"
    run = "/function" if box.corner is not None else "/execute positioned X Y Z run function"
    yield "a data pack (in SAVE/datapacks, then /reload). Near the cave, so that it is loaded:"
    yield f"{run} {name}/place sets the torches"
    yield f"{run} {name}/undo puts back what was there, where a torch stands still"
    yield f"{run} {name}/show marks their places, seen through walls, until /function {name}/hide"
    count = packs.parts(plan.torches)
    if count > 1 and box.corner is None:
        yield f"too long for one function: run {name}/place/1 to {name}/place/{count} in turn, so too undo/ and show/"
    elif count > 1:
        yield f"each runs {count} parts, one a tick"


def how(told):
    """The command, and what else the plan depends on."""
    rest = [f"{word} {told[word]}" for word in ("rule", "headroom", "table") if told.get(word) is not None]
    if told.get("version"):
        rest.insert(0, f"torchplan {told['version']}")
    if told.get("command"):
        yield ""
        yield f"Made by: {told['command']}"
    if rest:
        yield f"{'' if told.get('command') else 'Made with '}{', '.join(rest)}"

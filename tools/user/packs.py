"""Torches as commands for the game, and as a data pack that places them, takes them away again, and shows them."""
import io
import json
import zipfile

import names
import torches
import versions

NAMESPACE = "torchplan"
TIME = (1980, 1, 1, 0, 0, 0)  # of each file: the first that a zip can have

# A chain of commands may have 65,536 with all functions that it calls (Minecraft Wiki, "Game rule",
# maxCommandChainLength); `execute` counts for itself too.
LONGEST = 30_000

# The folder `functions` is `function` since 1.21 (Minecraft Wiki, "Data pack").
OLD, NEW, NEW_SINCE = "functions", "function", versions.release("1.21")

# A pack is for 1.18 and later, or from the world's version on where that is earlier. Blocks got other names in 1.20.3,
# so the last versions that read `functions` read them from an overlay ("Pack.mcmeta": overlays since 1.20.2). There
# are block displays since 1.19.4; what lies before the overlay does without.
FIRST = versions.release("1.18")
OVERLAY, OVERLAY_FOLDER = (versions.release("1.20.3"), versions.release("1.20.6")), "since_1_20_3"
DISPLAYS_SINCE = OVERLAY[0]

# A pack for more than one version may tell no main format below this, or 1.21.9 refuses it ("Pack.mcmeta").
LEAST_FORMAT = 15


class Writer:
    """Commands at the torches' places: in the dimension by the world's coordinates where the box has a corner, else
    relative to where they are run."""

    def __init__(self, corner=None, dimension=None):
        self.corner, self.dimension = corner, dimension

    def where(self, place, more=(0, 0, 0)):
        """The coordinates of a place, as a command has them."""
        if self.corner:
            return " ".join(str(at + by + part) for at, by, part in zip(self.corner, place, more))
        return " ".join(f"~{by + part or ''}" for by, part in zip(place, more))

    def inside(self, command):
        return f"execute in {self.dimension} run {command}" if self.dimension else command

    def under(self, condition):
        """A command that begins with a condition of `execute`."""
        return f"execute in {self.dimension} {condition}" if self.dimension else f"execute {condition}"

    def put(self, torch, state):
        return self.inside(f"setblock {self.where(torch[:3])} {torches.argument(state)}")

    def change(self, place, there, state):
        """Puts a block where another is there still."""
        at = self.where(place)
        return self.under(f"if block {at} {torches.argument(there)} run setblock {at} {torches.argument(state)}")

    def show(self, torch, tag, has_displays):
        """A shape that glows, so that it is seen through walls: the torch itself, in versions that can display blocks,
        else a small armour stand. A stand is in the middle of its cell; displays begin at the corner."""
        entity = display_of(torch) if has_displays else STAND
        tagged = f'{{Tags:["{tag}"],Glowing:1b,{entity[1]}}}'
        at = self.where(torch[:3], (0.0, 0.0, 0.0) if has_displays else (0.5, 0.0, 0.5))
        summoned = f"summon {entity[0]} {at} {tagged}"
        return self.inside(summoned) if self.corner else f"execute align xyz run {summoned}"


STAND = "minecraft:armor_stand", "Marker:1b,Small:1b,NoGravity:1b,Invulnerable:1b"


def display_of(torch):
    """A torch as a display (Minecraft Wiki, "Display")."""
    name, props = torches.state_of(torch)
    inner = "".join(f',Properties:{{{key}:"{value}"}}' for key, value in props.items())
    return "minecraft:block_display", f'block_state:{{Name:"{name}"{inner}}},brightness:{{sky:15,block:15}}'


def writer_of(box):
    return Writer(box.corner, box.corner and (box.dimension or "minecraft:overworld"))


def tag_of(box):
    """What the shapes that are shown are tagged by, so that no other cave's are hidden with them."""
    return f"{NAMESPACE}.{names.plain(box.name)}"


def placed(box, plan, away):
    """The commands of the functions that are alike in all versions."""
    writer = writer_of(box)
    taken = [writer.change(at, box.state_at(*at), torches.AIR) for at in away]
    return {
        "place": taken + [writer.put(torch, torches.state_of(torch)) for torch in plan.torches],
        "hide": [f"kill @e[tag={tag_of(box)}]"],
    }


def changing(box, before, away, release):
    """The commands of the functions that differ by version, for games from that release on: what puts back the blocks
    that stood by the torches' places before, and what shows the places."""
    writer, tag = writer_of(box), tag_of(box)
    since = max(release.data_version if release else 0, box.data_version or 0)
    renamed = lambda name: versions.name_in(since, name) if since else name
    has_displays = since >= DISPLAYS_SINCE.data_version
    undone = [writer.change(torch[:3], torches.state_of(torch), (renamed(name), props))
              for torch, (name, props) in before]
    return {
        "undo": undone + [writer.change(at, torches.AIR, box.state_at(*at)) for at in away],
        "show": [f"kill @e[tag={tag}]", *(writer.show(torch, tag, has_displays) for torch, _ in before)],
    }


def parts(lines):
    """How many functions these commands need."""
    return max(1, -(-len(lines) // LONGEST))


def split(name, lines, absolute):
    """The functions for commands: one, or parts and one over them. By the world's coordinates that one schedules the
    parts; relative ones are run by hand, since a scheduled one forgets where (Minecraft Wiki, "Commands/schedule")."""
    count = parts(lines)
    if count == 1:
        return {name: lines}
    found = {f"{name}/{part + 1}": lines[part * LONGEST : (part + 1) * LONGEST] for part in range(count)}
    if absolute:
        found[name] = [f"schedule function {NAMESPACE}:{part} {index + 1}t" for index, part in enumerate(found)]
    else:
        told = f"Too long for one function: run {NAMESPACE}:{name}/1 to {NAMESPACE}:{name}/{count} at the same corner"
        found[name] = [f"tellraw @a {json.dumps({'text': told})}"]
    return found


def functions(box, commands):
    """The text of each function by its name, under the cave's own name."""
    found = {}
    for name, lines in commands.items():
        found.update(split(f"{names.plain(box.name)}/{name}", lines, box.corner is not None))
    return {name: "".join(line + "\n" for line in lines) for name, lines in found.items()}


def formats(first, last):
    """A range of formats, as 1.20.2 to 1.21.8 read it, and as later versions do."""
    return {"min_inclusive": first, "max_inclusive": last}, {"min_format": first, "max_format": last}


def files(box, plan, away=()):
    """The files of the pack: their texts by their names. Blocks that the torches replace have the box's own names, and
    by an overlay those of 1.20.3 where it is earlier. `away` are places whose torches are taken away."""
    under = lambda folder, found: {f"{folder}/{name}.mcfunction": text for name, text in found.items()}
    alike = functions(box, placed(box, plan, away))
    before = [(torch, torches.replaced(box, torch)) for torch in plan.torches]
    old, between, new = [functions(box, changing(box, before, away, since)) for since in (None, OVERLAY[0], NEW_SINCE)]
    found = under(f"data/{NAMESPACE}/{OLD}", {**alike, **old})
    found.update(under(f"data/{NAMESPACE}/{NEW}", {**alike, **new}))
    others = {name: text for name, text in between.items() if text != old[name]}
    found.update(under(f"{OVERLAY_FOLDER}/data/{NAMESPACE}/{OLD}", others))
    found["pack.mcmeta"] = json.dumps(meta(box, bool(others)), indent=2) + "\n"
    return found


def meta(box, has_overlay):
    """What pack.mcmeta says: for which versions the pack is, and what it is."""
    own = versions.release_of(box.data_version) or FIRST
    first = min(FIRST.pack_format, own.pack_format)
    old, new = formats(first, versions.LATEST.pack_format)
    told = {
        "pack_format": max(LEAST_FORMAT, own.pack_format),
        "description": f"Torches for {box.name}" if box.name else "Torches",
        "supported_formats": old,
        **new,
    }
    if not has_overlay:
        return {"pack": told}
    old, new = formats(*[release.pack_format for release in OVERLAY])
    return {"pack": told, "overlays": {"entries": [{"directory": OVERLAY_FOLDER, "formats": old, **new}]}}


def pack(box, plan, away=()):
    """The bytes of the pack: names in order, of one time, so that a plan gives one pack."""
    whole = io.BytesIO()
    with zipfile.ZipFile(whole, "w") as archive:
        for name, text in sorted(files(box, plan, away).items()):
            entry = zipfile.ZipInfo(name, TIME)
            entry.compress_type, entry.create_system, entry.external_attr = zipfile.ZIP_DEFLATED, 3, 0o644 << 16
            archive.writestr(entry, text.encode())
    return whole.getvalue()

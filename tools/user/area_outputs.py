"""The folder of an area: one pack, a page that leads to those of the pieces, and what is what."""
import html
import os
import shutil

import names
import overviews
import packs
import plans
import torches
from area_runs import DONE
from folders import put
from outputs import how
from saying import counted

PAGE = """<!DOCTYPE html>
<html lang="en-GB">
<head>
<meta charset="utf-8">
<meta name="viewport" content="width=device-width, initial-scale=1">
<meta name="color-scheme" content="dark light">
<meta http-equiv="Content-Security-Policy" content="default-src 'none'; style-src 'unsafe-inline'; img-src data:">
<title>{title}</title>
<link rel="icon" href="data:,">
<style>
body {{ font: 16px/1.5 system-ui, sans-serif; max-width: 50em; margin: 1em auto; padding: 0 1em; }}
li {{ margin: .3em 0; }}
li a {{ display: inline-block; min-height: 1.8em; }}
svg {{ display: block; width: 100%; max-height: 90vh; font-family: inherit; }}
rect {{ fill: currentColor; fill-opacity: .1; stroke: currentColor; stroke-width: 1; vector-effect: non-scaling-stroke; }}
a:hover rect, a:focus rect {{ fill-opacity: .3; }}
text {{ fill: currentColor; text-anchor: middle; dominant-baseline: central; }}
path {{ pointer-events: none; }}
</style>
</head>
<body>
<h1>{title}</h1>
<p>{told}</p>
<ul>{notes}</ul>
{overview}
<h2>Pieces, in the order of a walk</h2>
<ol>
{pieces}
</ol>{left}
</body>
</html>
"""


class Area:
    """An area to the writer of packs: a box whose states are known where torches are placed."""

    def __init__(self, world, extent, name, states):
        self.extent = extent
        self.corner, self.dimension, self.data_version = extent.low, world.dimension, world.data_version
        self.name, self.states = name, states

    def state_at(self, *at):
        return self.states.get(tuple(at))


def write(folder, area, plan, told, whole):
    """Writes an area's folder. `plan` has the torches of the whole from the area's corner on. `told` is what `outputs.how`
    tells of how it was made; with "away" and "placed", the torches that change, told as those of the plan; and with
    "log", the file that tells what other machines did, or None."""
    os.mkdir(os.path.join(folder, "pieces"))
    for number, (_, result) in enumerate(whole.parts, 1):
        kept = shutil.ignore_patterns(DONE)
        shutil.copytree(result.folder, os.path.join(folder, "pieces", str(number)), ignore=kept)
    if told["log"] is not None:
        shutil.copyfile(told["log"], os.path.join(folder, "pieces", "log"))
    name = f"{names.plain(area.name)}-torches"
    text = plans.with_corner(plans.text_of_torches(plan), area.corner, area.dimension)
    put(folder, "plan.txt", text.encode())
    put(folder, f"{name}.zip", packs.pack(area, plan._replace(torches=told["placed"]), told["away"]))
    put(folder, "index.html", page(area, whole).encode("utf-8", "replace"))
    put(folder, "README.txt", "".join(line + "\n" for line in readme(area, name, whole, told)).encode())


def page(area, whole):
    """The text of the page."""
    found = [(extent, result.torches, f"pieces/{number}/index.html", counts(result))
             for number, (extent, result) in enumerate(whole.parts, 1)]
    line = '<li><a href="{}">{}</a>: {}</li>'
    listed = [line.format(page, html.escape(" ".join(map(str, [*extent.low, "to", *extent.high]))), html.escape(told))
              for extent, _, page, told in found]
    title = html.escape(f"Torches for {area.name}")
    told = "".join(f"<li>{html.escape(note)}</li>" for note in [*whole.changes(), *whole.notes])
    return PAGE.format(title=title, told=html.escape(whole.told()), pieces="\n".join(listed), notes=told,
                       overview=overviews.svg(area.extent, found) if found else "", left=left_over(whole.left))


def left_over(places):
    """The torches to take away that stand where no piece is planned, for the page."""
    told = "".join(f"<li>{' '.join(map(str, at))}</li>" for at in places)
    return f"\n<h2>Take away beside the pieces</h2>\n<ul>{told}</ul>" if places else ""


def counts(result):
    """How many torches a piece has, for how many dark cells, and how many of those that stand are taken away."""
    least = "" if result.at_least is None else f", at least {result.at_least:,} needed"
    away = f", take away {len(result.away):,}" if result.away else ""
    apart = f", {len(result.apart):,} only where nobody gets to" if result.apart else ""
    return (f"{torches.load(len(result.torches))}, {counted(len(result.dark), 'dark cell', 'dark cells')}"
            f"{least}{away}{apart}")


def readme(area, name, whole, told):
    """The lines of README.txt."""
    function = f"{packs.NAMESPACE}:{names.plain(area.name)}"
    yield f"Torches for {''.join(letter if letter.isprintable() else '?' for letter in area.name)}: {whole.told()}"
    yield f"The corner of the area is {' '.join(map(str, area.corner))} in {area.dimension}."
    if whole.changes():
        count = f"{len(whole.placed):,}{':' if whole.away else '.'}"
        yield f"Take away {len(whole.away):,} that stand there, place {count}"
        yield from (f"  take away {' '.join(map(str, at))}" for at in whole.away)
    yield from whole.notes
    yield ""
    yield "index.html  a map of the pieces, each of which leads to its own map and list; for a browser; needs no network"
    yield "plan.txt    the torches of all pieces as text, told from the corner of the area"
    yield "pieces/     a folder for each piece, as for a box: page, schematics, plan, proof, cave and table"
    if told["log"] is not None:
        yield "pieces/log  which machine planned, when, and for how many seconds, a line for each piece"
    yield f"{name}.zip"
    yield "            a data pack for all torches (in SAVE/datapacks, then /reload). Near each cave:"
    yield f"            /function {function}/place sets the torches there"
    yield f"            /function {function}/undo puts back what was there, where a torch stands still"
    yield f"            /function {function}/show marks their places, seen through walls, until"
    yield f"            /function {function}/hide"
    yield from how(told)

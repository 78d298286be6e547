"""The page that plans by itself, of its parts in page/, of what tools/user has (the page of a plan, releases, how
blocks are drawn), of the shipped rows in docs/FORMATS.md and the vanilla tables. So each of these stands once."""
import base64
import gzip
import json
import os
import sys

import kit

sys.path[1:1] = [os.path.join(kit.TOP, "tools", folder) for folder in ("user", "dev")]
import box_runs
import chunks
import dimensions
import looks
import page
import rows
import shells
import shipped
import unknowns
import versions
import worlds

PARTS = os.path.join(kit.HERE, "page")
TABLES = os.path.join(kit.TOP, "examples", "tables")
WORKER = ["host.js", "refusals.js", "bytes.js", "names.js", "nbt.js", "structures.js", "tables.js", "fields.js",
          "places.js", "plans.js", "walks.js", "edges.js", "plan_page.js", "packs.js", "schematics.js",
          "schematic_files.js", "wrong_files.js", "unknowns.js", "certificates.js", "brightening.js", "rearranging.js",
          "outputs.js", "extents.js", "region_files.js", "chunks.js", "dimensions.js", "worlds.js", "shells.js",
          "world_files.js", "world_caves.js", "slabs.js", "planning.js", "worker.js"]
SCRIPTS = ["chosen.js", "world_form.js", "page.js"]


def part(name):
    with open(os.path.join(PARTS, name), encoding="utf-8") as file:
        return file.read()


def tables():
    """The vanilla tables' texts by their names."""
    found = {}
    for name in sorted(os.listdir(TABLES)):
        with open(os.path.join(TABLES, name), encoding="utf-8") as file:
            found[name] = file.read()
    return found


def data(version):
    """What the worker's scripts read of tools/user, but for the tables."""
    return {
        "version": version,
        "releases": versions.RELEASES,
        "renamed": versions.RENAMED,
        "shipped": [[" ".join(names), opacity, emission, " ".join(columns)]
                    for names, opacity, emission, columns in shipped.listed()],
        "unknown": unknowns.HEAD,
        "columns": rows.COLUMNS,
        "chunks": {"earliest": chunks.EARLIEST, "leftOut": sorted(name.decode() for name in chunks.LEFT_OUT)},
        "dimensions": {
            "overworld": dimensions.OVERWORLD,
            "name": dimensions.NAME.pattern,
            "folders": dimensions.FOLDERS,
            "usual": dimensions.USUAL,
            "tall": dimensions.TALL,
        },
        "worlds": {
            "around": worlds.AROUND,
            "at": worlds.AT,
            "margin": shells.MARGIN,
            "otherLevels": box_runs.OTHER_LEVELS,
        },
        "looks": {
            "air": sorted(looks.AIR),
            "shining": sorted(looks.SHINING),
            "shiningNames": sorted(looks.SHINING_NAMES),
            "slight": sorted(looks.SLIGHT),
            "slightNames": sorted(looks.SLIGHT_NAMES),
            "full": sorted(looks.FULL),
            "colours": looks.COLOURS,
            "grey": looks.GREY,
        },
        "web": {
            "page": page.part("page.html"),
            "style": page.part("page.css"),
            "script": "\n".join(map(page.part, page.SCRIPTS)),
        },
    }


def worker(version, names=WORKER):
    """The text of the worker: its data, then its scripts."""
    return "\n".join([f"const DATA = {page.script_text(data(version))};", *map(part, names)])


def packed(data):
    """Bytes packed by gzip, as base64: always to the same text."""
    return base64.b64encode(gzip.compress(data, 9, mtime=0)).decode()


def made(program, version):
    """The text of the page with a program, the bytes of its WebAssembly."""
    pieces = {
        "VERSION": version,
        "STYLE": part("page.css"),
        "WORKER": worker(version),
        "PROGRAM": packed(program),
        "TABLES": packed(json.dumps(tables(), ensure_ascii=False).encode()),
        "SCRIPT": "\n".join(map(part, SCRIPTS)),
    }
    whole, *rest = part("page.html").split("{{")
    for piece in rest:
        name, after = piece.split("}}", 1)
        whole += pieces[name] + after
    return whole

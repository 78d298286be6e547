"""A piece of an area as a job for another machine: its cave, and all that its plan depends on."""
import base64
import hashlib
import json
import os
import platform
import shlex
import tempfile

import area_runs
import extents
import parcels
import planning
import sources
import tables
from box_runs import Context
from boxes import Box
from command_lines import parsed
from extents import Extent
from lookups import Lookup
from piece_runs import planned_cave, read_piece
from pieces import Piece
from program import Program
from reaching import Reached
from refusals import Refusal

JOB = "job.json"
NEAR = 2  # of how many layers about a piece it asks whether one gets there
HERE = os.path.dirname(os.path.abspath(__file__))


def sum_of_scripts():
    """A sum of these scripts: the same everywhere, so that a piece comes out as it would here."""
    whole = hashlib.sha256()
    for name in sorted(name for name in os.listdir(HERE) if name.endswith(".py")):
        with open(os.path.join(HERE, name), "rb") as file:
            whole.update(name.encode() + b"\0" + file.read())
    return whole.hexdigest()


def line_of(name, told, terms, version, context):
    """The line of a piece, under a name."""
    cave, piece = read_piece(told, context), context.piece
    told_box = [cave.around.size, cave.around.palette, list(cave.around.cells), cave.around.corner,
                cave.around.dimension, cave.around.data_version]
    job = {
        "made": [version, sum_of_scripts()], "words": shlex.split(told.command)[1:], "rule": terms.rule,
        "table": [terms.table.name, terms.table.data.decode("utf-8", "surrogateescape")], "piece": piece,
        "area": context.area, "name": cave.box.name, "notes": cave.notes, "around": told_box,
        "reached": context.is_reached and told_reached(context.is_reached.near(extents.grown(piece.extent, NEAR))),
    }
    return parcels.packed(name, {JOB: json.dumps(job).encode()})


def told_reached(reached):
    """What one gets to, as JSON has it."""
    tiles = [[*at, base64.b64encode(tile).decode()] for at, tile in reached.tiles.items()]
    return [reached.low, reached.size, tiles]


def read_reached(told):
    low, size, tiles = told
    return Reached(low, size, {(x, z): base64.b64decode(tile) for x, z, tile in tiles})


def read_extent(told):
    return Extent(*map(tuple, told))


def planned(job, folder):
    """Plans a piece into a folder."""
    version = Program().version()
    if job["made"] != [version, sum_of_scripts()]:
        raise Refusal("torchplan is another than where the area is planned: take the same commit on all machines")
    name, text = job["table"]
    told, table = parsed(job["words"]), tables.Table(name, text.encode("utf-8", "surrogateescape"), None)
    terms = planning.Terms(told, table, Lookup(table), job["rule"])
    extent, seeds, torches = job["piece"]
    piece = Piece(read_extent(extent), list(map(tuple, seeds)), list(map(tuple, torches)))
    size, palette, cells, corner, dimension, data_version = job["around"]
    around = Box(tuple(size), [tuple(state) for state in palette], cells, tuple(corner), dimension, data_version)
    cave = sources.cave_within(around, piece.extent, job["name"], job["notes"])
    context = Context(job["reached"] and read_reached(job["reached"]), piece, read_extent(job["area"]))
    area_runs.keep(folder, planned_cave(terms, version, cave, folder, context))


def files_of(folder):
    """The files of a folder by their names."""
    found = {}
    for name in os.listdir(folder):
        with open(os.path.join(folder, name), "rb") as file:
            found[name] = file.read()
    return found


def answer(line, out):
    """Writes the line of what comes of a job; the status."""
    name, status = "", 0
    with tempfile.TemporaryDirectory() as folder:
        try:
            name, files = parcels.opened(line)
            planned(json.loads(files[JOB]), folder)
            files = files_of(folder)
        except Refusal as why:
            status, files = why.status, {area_runs.FAILED: f"{platform.node()}: {why}".encode()}
    out.write(parcels.packed(name, files))
    out.flush()
    return status

"""The way from an area of a world that no box holds to the folder with its torches."""
import os
import shutil
import sys
import time

import answers
import area_outputs
import area_runs
import area_walks
import box_runs
import extents
import piece_jobs
import sources
import torches
from area_plans import Whole
from area_runs import AreaRun
from folders import new_folder
from hosts import LOG, Hosts, require_parallel
from piece_runs import dark_in, planned_piece
from plans import Plan, Torch
from refusals import Refusal
from saying import answer, counted, note
from terms import refuse_unknown, terms_for


def light_area(told, world, extent, place, own, version, began):
    """A run over an area; the status."""
    if told.hosts is not None:
        require_parallel()
    terms = terms_for(told, world.data_version, own)
    about = sources.extent_about(world, extent)  # as of a box, the walk may go some layers beyond the area
    is_reached = box_runs.reached_by(told, area_walks.Walk(world, about, terms.rows).reached_from)
    area = box_runs.Context(is_reached, area=extent)
    context_of = lambda piece: area._replace(piece=piece)
    pieces, stand = cut_up(told, terms, world, extent, place, own)
    key = key_of(told, terms, version, world, extent)
    plan_piece = lambda piece, *given: planned_piece(told, terms, version, context_of(piece), *given)
    run = AreaRun(plan_piece, place + ".pieces", key, note, told.progress or sys.stderr.isatty())
    line_of = lambda name, piece: piece_jobs.line_of(name, told, terms, version, context_of(piece))
    results = run.run(pieces, told.jobs, told.hosts and Hosts(told.hosts, told.jobs, line_of))
    if run.failed:
        raise Refusal(f"{counted(len(run.failed), 'piece', 'pieces')} of {len(pieces):,} failed; the others are kept in"
                      f" {run.work}: the same command goes on with what is missing")
    look_through(told, terms, area, pieces, results, run.work)
    whole = Whole(pieces, results, stand)
    with new_folder(place, told.force) as folder:
        write(folder, world, extent, whole, told, terms, version, os.path.join(run.work, LOG))
    shutil.rmtree(run.work, ignore_errors=True)
    name = sources.name_of(world, extent)
    for line in box_runs.apart_lines(whole.apart):
        note(line)
    answer([f"{name}: {whole.told()}", *whole.changes(), f"carry {torches.load(len(whole.placed))}",
            f"in {place}: open index.html (README.txt says what is what)",
            f"took {time.monotonic() - began:,.1f} seconds"])
    return 0 if whole.at_least is None else answers.STOPPED


def cut_up(told, terms, world, extent, place, own):
    """The pieces of an area, and the torches that may be taken away: their states by their places."""
    pieces, caves, stand, unknown = area_runs.pieces_in(world, extent, terms.rows, int(told.headroom))
    if unknown:
        refuse_unknown(unknown, place, own)
    cut = sum(not piece.seeds for piece in pieces)
    note(f"{counted(caves, 'cave lies', 'caves lie')} apart, in {counted(len(pieces), 'piece', 'pieces')} to plan"
         + (f", {cut:,} of them parts of caves that are cut" if cut else ""))
    return pieces, stand if told.move else {}


def key_of(told, terms, version, world, extent):
    """What the pieces of an area depend on, beside where they lie."""
    table = terms.table.data.decode("utf-8", "replace")
    return [version, terms.rule, told.headroom, table, told.turns, told.to_the_end, told.as_planned, told.only,
            told.barred, told.move, told.reachable, told.walk or told.around, extent, area_runs.files_key(world)]


def look_through(told, terms, area, pieces, results, work):
    """Looks once more through the parts of caves that are cut, with all torches: no cell may be dark that doesn't get a
    slab."""
    there = [torch for result in results for torch in result.torches]
    slabbed = {tuple(at) for result in results for at in result.slabs}
    folder = os.path.join(work, "look")
    for piece in pieces:
        if not piece.seeds:
            os.makedirs(folder, exist_ok=True)
            dark = set(map(tuple, dark_in(told, terms, area._replace(piece=piece, there=there), folder))) - slabbed
            if dark and not told.barred:
                at = " ".join(map(str, min(dark)))
                raise Refusal(f"{len(dark):,} cells stay dark in the part {extents.told(piece.extent)}, such as {at}")


def write(folder, world, extent, whole, told, terms, version, log):
    """Writes the area's folder. `log` is the file that tells what other machines did, if they did anything."""
    own = lambda at: tuple(a - b for a, b in zip(at, extent.low))
    torches_of = lambda found: [Torch(*own(torch[:3]), torch[3]) for torch in found]
    plan = Plan(torches_of(whole.torches), whole.dark, whole.at_least, {})
    states = {own(at): (name, props) for at, (name, props) in whole.states.items()}
    area = area_outputs.Area(world, extent, sources.name_of(world, extent), states)
    said = {"command": told.command, "rule": terms.rule, "headroom": told.headroom, "table": terms.table.name,
            "version": version, "log": log if os.path.exists(log) else None, "away": list(map(own, whole.away)),
            "placed": torches_of(whole.placed)}
    area_outputs.write(folder, area, plan, said, whole)

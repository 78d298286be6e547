"""The way from a cave to the folder with its torches."""
import os
import sys
import time

import answers
import area_lighting
import box_runs
import extents
import reaching
import sources
import tables
import torches
import unknowns
import worlds
from command_lines import OTHER_DIMENSION
from dimensions import OVERWORLD
from folders import new_folder, require_parent, require_place
from program import MARK, UNKNOWN, UNWRITTEN, Ended, Program
from refusals import USAGE, Refusal
from saying import answer, counted, note
from serving import serve
from terms import refuse_unknown, terms_for
from worlds import World

OPEN = "the world is open: what the game hasn't saved yet isn't seen (on a server run save-all flush first)"
NO_PLAYER = "level.dat tells of no player: name a box by --around X Y Z, or by --from X Y Z --to X Y Z"


def world_of(told):
    """The world that the command line tells, and the extent of it."""
    world = World(told.world, told.dimension)
    if told.one is None and told.around is None and told.chunks is None:
        if world.level.player is None:
            raise Refusal(NO_PLAYER)
        told.around, where = world.level.player
        if told.dimension is None and where != world.dimension:
            told.dimension, world = where, World(told.world, where)
    if world.dimension != OVERWORLD and told.rule is None:
        raise Refusal(OTHER_DIMENSION, USAGE)
    if world.is_open:
        note(OPEN)
    return world, extent_of(told, world)


def extent_of(told, world):
    """The extent that the command line tells: between two corners, of chunks, or about a point."""
    if told.one is not None:
        return extents.between(tuple(told.one), tuple(told.other))
    if told.chunks is not None:
        return worlds.extent_of_chunks(world, extents.between(told.chunks[:2], told.chunks[2:]))
    if told.radius is not None:
        return worlds.extent_within(world, tuple(told.around), told.radius)
    return worlds.extent_around(world, tuple(told.around))


def said_by(ended, place, own):
    """Says what the planner ended by, and why; the status."""
    if UNKNOWN in ended.kept:
        refuse_unknown([ended.kept[UNKNOWN]], place, own)
    for begins, rest in ended.kept.items():
        print(f"{MARK}{begins}{rest}", file=sys.stderr)
    if UNWRITTEN in ended.kept:
        files = "plan.txt or plan.proof" if ended.command == "plan" else f"what {ended.command} says"
        note(f"it was writing {files}")
    return ended.status


def summary(outcome, changes, name, place, seconds):
    """What the terminal says at the end, in lines."""
    plan, least = outcome.plan, outcome.plan.at_least
    cells = counted(len(outcome.dark), "dark cell", "dark cells")
    done = f"{counted(len(plan.torches), 'torch', 'torches')} for {cells}"
    if not outcome.dark:
        yield f"{name}: no cell is dark, no torch is needed"
    elif least is None:
        yield f"{name}: {done}; fewer don't do, and the proof is checked"
    else:
        needed = f"at least {least:,} {'is' if least == 1 else 'are'} needed"
        yield f"{name}: {done}, safe; {needed}; more time may find fewer"
    if changes.away or len(changes.placed) < len(plan.torches):
        yield f"take away {len(changes.away)}, place {len(changes.placed)}"
    yield f"carry {torches.load(len(changes.placed))}"
    yield f"in {place}: open index.html (README.txt says what is what)"
    yield f"took {seconds:,.1f} seconds"


def light(told):
    """One run, by the words of the command line; the status. What can be refused before anything is read is."""
    if told.serve is not None:
        return serve(told.serve)
    began = time.monotonic()
    own = told.table and tables.own_table(told.table)
    require_parent(told.into)
    version = Program().version()
    if told.file is None:
        world, extent = world_of(told)
        name = sources.name_of(world, extent, "_")
    else:
        name = sources.name_of_file(told.file)
    place = os.path.normpath(os.path.join(told.into, f"{name}-torches"))
    require_place(place, told.force)
    try:
        if told.file is not None:
            return light_box(told, sources.read_file(told.file, name), place, own, version, began)
        return light_world(told, world, extent, place, own, version, began)
    except Ended as ended:
        return said_by(ended, place, own)


def light_world(told, world, extent, place, own, version, began):
    """The run of a box of a world, or of an area; the status."""
    worlds.require_blocks(world, extent)
    if not extents.is_small(extent):
        return area_lighting.light_area(told, world, extent, place, own, version, began)
    size = " x ".join(map(str, extents.size_of(extent)))
    note(f"the box is {extents.told(extent)}, {size} cells")
    cave = sources.read_world(world, extent, sources.name_of(world, extent))
    return light_box(told, cave, place, own, version, began)


def light_box(told, cave, place, own, version, began):
    """The run of one box, or of a file; the status."""
    terms = terms_for(told, cave.box and cave.box.data_version, own)
    names = unknowns.unknown_names(cave.box, terms.rows) if cave.box else []
    if names:
        refuse_unknown(names, place, own)
    box_runs.require_box(cave, told)
    with new_folder(place, told.force) as folder:
        reached_from = lambda point: reaching.reached_from(cave.around or cave.box, terms.rows, point)
        context = box_runs.Context(box_runs.reached_by(told, reached_from))
        outcome = box_runs.planned(Program(), folder, terms, cave, context)
        box_runs.say_notes(outcome)
        changes = box_runs.filled(folder, cave, outcome, terms, version, context)
        for line in box_runs.apart_lines(changes.apart):
            note(line)
    answer(summary(outcome, changes, cave.box.name, place, time.monotonic() - began))
    return 0 if outcome.plan.at_least is None else answers.STOPPED

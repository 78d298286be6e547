"""The run of one box: what the planner is given of a cave, and what is made of its plan."""
import os
from collections import namedtuple

import extents
import matters
import nbt_writer
import outputs
import planning
import plans
import shells
import standing
import structures
import walks
from dimensions import OVERWORLD
from folders import put
from program import OTHERWISE
from refusals import Refusal
from saying import counted, note

OTHER_LEVELS = (
    "in the Nether and the End mobs spawn at other levels than in the Overworld, some at any: by this rule torches"
    " don't keep all of them away"
)
MANY = 10  # how many notes are said at the terminal
APART = "{} only cells where nobody gets to on foot, last in the list: --reachable leaves them out"

# What a run depends on beside its cave: where one gets to on foot, or None; of a piece of an area the piece, the area's
# extent, and the torches of other pieces that stand already.
Context = namedtuple("Context", "is_reached piece area there", defaults=(None, None, None, ()))

# The torches to take away, by their places in the box, those to place, and those of them that light only what nobody
# gets to.
Changes = namedtuple("Changes", "away placed apart")


def require_box(cave, told):
    """Refuses what asks for the blocks of a file that is read by the planner alone."""
    if cave.box is None and (told.walk or told.only or told.barred or told.move):
        raise Refusal(f"{told.file}: light doesn't read this file, so it can't leave anything out")


def reached_by(told, reached_from):
    """Where one gets to from the point that is told, by a function of that point; None where none is told, or where
    nobody can stand there."""
    point = told.walk or told.around
    if point is None:
        return None
    is_reached = reached_from(point)
    if is_reached is None:
        line = f"nobody can stand at {' '.join(map(str, point))}: name another place by --walk X Y Z"
        if told.walk or told.reachable:
            raise Refusal(line)
        note(line)
    return is_reached


def layout_of(cave, terms, context):
    """The cave as the planner reads it: a box of a world with its shell, without the torches that may be moved, and
    without what doesn't matter."""
    told, has_shell = terms.told, cave.around is not None
    moved = moved_in(cave, context) if told.move and cave.box else []
    if not has_shell:
        data = structures.box_file(cave.box) if cave.data is None else cave.data
        layout = planning.Layout(cave.box, cave.box, [], data, False)
    else:
        around = standing.without(cave.around, moved)
        read, rows = shells.shelled(cave.box, around, terms.rows, int(told.headroom))
        layout = planning.layout_of(cave.box, read, rows, True)
    if cave.box is None:
        return layout
    if told.move:
        layout = planning.with_read(layout, standing.without(layout.read, moved, int(has_shell)))
    if told.only or told.reachable:
        is_due, of_rows = due_by(told, context), planning.rows_for(terms, layout)
        layout = planning.with_read(layout, *matters.without_ground(layout.read, of_rows, lambda at: not is_due(at)))
    if told.barred:
        is_barred, of_rows = matters.in_any(extents_of(told.barred)), planning.rows_for(terms, layout)
        layout = planning.with_read(layout, *matters.without_places(layout.read, of_rows, is_barred))
    return layout


def moved_in(cave, context):
    """Where torches stand that are planned as if they didn't, by the world's coordinates or the box's own: those of the
    box; of a piece all of its area that are known, but where another piece has one again."""
    if context.area is None:
        return list(map(cave.box.worldly, standing.torches_of(cave.box, int(cave.around is not None))))
    there = {tuple(torch[:3]) for torch in context.there}
    places = map(cave.around.worldly, standing.torches_of(cave.around))
    return [at for at in places if extents.has(context.area, at) and at not in there]


def due_by(told, context):
    """Which cells may not stay dark."""
    is_inside = matters.in_any(extents_of(told.only))
    return lambda at: not (told.only and not is_inside(at) or told.reachable and not context.is_reached(at))


def extents_of(corners):
    return [extents.between(numbers[:3], numbers[3:]) for numbers in corners]


def own_torches(cave, told, context):
    """Where the torches stand that this plan may take away, by their places in the box."""
    if not told.move:
        return []
    places = moved_in(cave, context) if context.piece is None else context.piece.torches
    return list(map(cave.box.own, places))


def planned(program, folder, terms, cave, context):
    """What comes of a cave, with what has to be known of it. Of a piece only those caves may be planned that have some
    cells."""
    try:
        layout = layout_of(cave, terms, context)
        if context.piece and context.piece.seeds:
            alone = matters.alone(layout.read, planning.rows_for(terms, layout), context.piece.seeds)
            layout = planning.with_read(layout, *alone)
        outcome = planning.planned(program, folder, terms, layout)
    except Refusal as why:
        raise why.at(OTHERWISE.format(program.path)) from None
    except (ValueError, IndexError) as why:
        raise Refusal(f"{OTHERWISE.format(program.path)}: {why}") from None
    if cave.box is None:
        raise Refusal(f"{terms.told.file}: torchplan reads this file, but light doesn't")
    notes = [OTHER_LEVELS] if cave.box.dimension not in (None, OVERWORLD) else []
    return outcome._replace(notes=notes + cave.notes + outcome.notes)


def say_notes(outcome):
    """Says what has to be known, and where there is too much of it, that there is more."""
    for line in outcome.notes[:MANY]:
        note(line)
    if len(outcome.notes) > MANY:
        note(f"and {len(outcome.notes) - MANY:,} lines more, in README.txt and on the page")


def filled(folder, cave, outcome, terms, version, context):
    """Writes what is made of a plan into its folder; what changes in the world."""
    told, box = terms.told, outcome.layout.box
    said = {"command": told.command, "rule": terms.rule, "headroom": told.headroom, "table": terms.table.name}
    said.update(version=version, files={}, total=len(outcome.plan.torches))
    if terms.table.path is None or outcome.layout.rows:
        said["files"]["table.toml"] = "the table of blocks that the plan goes by"
    if outcome.layout.data is not cave.data:
        put(folder, "cave.nbt", nbt_writer.zipped(outcome.layout.data))
        said["files"]["cave.nbt"] = "the cave as it was planned, a packed structure file; plan.proof is of this cave"
    else:
        os.remove(os.path.join(folder, "cave.nbt"))
    if box.corner is not None:
        tell_corner(folder, box)
    away, placed = standing.compared(box, own_torches(cave, told, context), outcome.plan.torches)
    apart = torches_apart(cave, outcome, terms, placed, context)
    others = [torch for torch in placed if torch not in apart]
    plan = outcome.plan._replace(torches=walks.in_order(others) + walks.in_order(apart))
    said["apart"], said["away"] = len(apart), walks.in_order(away)
    outputs.write(folder, box, plan, outcome.dark, outcome.levels, outcome.verdict, said,
                  outcome.notes + apart_lines(apart))
    return Changes(away, placed, apart)


def apart_lines(apart):
    """What has to be known of torches that light only what nobody gets to: a line, where there are any."""
    return [APART.format(counted(len(apart), "torch lights", "torches light"))] if apart else []


def torches_apart(cave, outcome, terms, placed, context):
    """The torches that light only cells where nobody gets to."""
    if context.is_reached is None:
        return []
    rows, read = planning.rows_for(terms, outcome.layout), outcome.layout.read
    need = planning.NEEDS[terms.rule]
    found = matters.apart(read, rows, placed, outcome.dark, need, context.is_reached)
    if not found or context.piece is None or context.piece.seeds:
        return found
    # a part of a cave: its torches may light what lies in other parts, which are planned by that light
    is_due = due_by(terms.told, context)
    is_wanted = lambda at: extents.has(context.area, at) and is_due(at) and context.is_reached(at)
    around = standing.without(cave.around, moved_in(cave, context) if terms.told.move else [])
    own = lambda torch: torch._replace(**dict(zip("xyz", around.own(cave.box.worldly(torch[:3])))))
    dark = matters.dark_in(around, terms.rows, int(terms.told.headroom), need)
    kept = set(matters.apart(around, terms.rows, list(map(own, found)), dark, need, is_wanted))
    return [torch for torch in found if own(torch) in kept]


def tell_corner(folder, box):
    """Puts the world's coordinates of the corner into plan.txt."""
    with open(os.path.join(folder, "plan.txt"), encoding="utf-8") as file:
        text = plans.with_corner(file.read(), box.corner, box.dimension)
    put(folder, "plan.txt", text.encode())

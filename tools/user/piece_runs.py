"""The run of one piece of an area."""
import tempfile

import answers
import box_runs
import planning
import slabs
import sources
import torches
from area_runs import Result
from program import MARK, Ended, Program
from refusals import Refusal
from worlds import World


def read_piece(told, context):
    """The cave of a piece, in which torches of other pieces stand already."""
    world = World(told.world, told.dimension)
    extent = context.piece.extent
    return sources.read_world(world, extent, sources.name_of(world, extent), context.there)


def planned_piece(told, terms, version, context, folder, of_whole, of_parts):
    """Plans a piece into a folder, given the torches of whole caves and of other parts that stand already."""
    context = context._replace(there=of_whole + of_parts)
    result = planned_cave(terms, version, read_piece(told, context), folder, context)
    if of_parts:  # what other parts light was dark too
        with tempfile.TemporaryDirectory() as room:
            result = result._replace(dark=dark_in(told, terms, context._replace(there=of_whole), room))
    return result


def planned_cave(terms, version, cave, folder, context):
    """Plans the cave of a piece into a folder."""
    try:
        outcome = box_runs.planned(Program(), folder, terms, cave, context)
    except Ended as ended:
        raise Refusal("; ".join(f"{MARK}{begins}{rest}" for begins, rest in ended.kept.items())
                      or f"torchplan {ended.command} ended by status {ended.status}") from None
    changes = box_runs.filled(folder, cave, outcome, terms, version, context)
    box, found = cave.box, outcome.plan.torches
    worldly = lambda torches: [[*box.worldly(torch[:3]), torch.hang] for torch in torches]
    return Result(
        folder, worldly(found), [torches.replaced(box, torch) for torch in found], list(map(box.worldly, outcome.dark)),
        outcome.plan.at_least, outcome.notes, list(map(box.worldly, slabs.cells_of(outcome.layout.read))),
        list(map(box.worldly, changes.away)), worldly(changes.apart),
    )


def dark_in(told, terms, context, folder):
    """The dark cells of a part, by the world's coordinates."""
    cave, program = read_piece(told, context), Program()
    planning.laid_out(program, folder, terms, box_runs.layout_of(cave, terms, context))
    return [cave.box.worldly(at) for at in answers.darkness(program, folder).cells]

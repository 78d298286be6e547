"""What the planner is asked of a cave, and what comes of it: a folder with the cave, its plan and the plan's proof."""
from collections import namedtuple

import answers
import edges
import matters
import slabs
import structures
import tables
from folders import put
from rearranging import rearranged
from program import UNLIGHTABLE, Ended

LEFT = "cells stay dark since no torch may stand where it would light them (--not): "
NEEDS = {"1.18": 1, "1.17": 8}  # the level that keeps mobs away, by rule

# What a run goes by: the words of the command line, the table, which of its rows serve block states, and the rule.
Terms = namedtuple("Terms", "told table rows rule")

# A cave as it stands, or None where only the planner reads it; as the planner reads it, where states of made names may
# stand for others; the rows of those names; the structure file; and whether its outermost layers are a shell.
Layout = namedtuple("Layout", "box read rows data has_shell")

# A plan, the cells that were dark before, the level of each cell with the torches, the verdict on the proof (None where
# the search was stopped), what the planner read, and what has to be known, in lines.
Outcome = namedtuple("Outcome", "plan dark levels verdict layout notes")


def layout_of(box, read, rows, has_shell):
    """A layout in which these rows are made."""
    box.made = frozenset(number for number, (one, other) in enumerate(zip(box.cells, read.cells)) if one != other)
    return Layout(box, read, rows, structures.box_file(read), has_shell)


def with_read(layout, read, rows=()):
    """The layout that is read as another box, which has some rows more."""
    return layout_of(layout.box, read, [*layout.rows, *rows], layout.has_shell)


def with_slabs(layout, cells):
    """The layout with slabs in these cells."""
    rows = [] if slabs.ROW in layout.rows else [slabs.ROW]
    return with_read(layout, slabs.with_slabs(layout.read, cells), rows)


def without(layout, rows, cells):
    """The layout in which these cells may stay dark."""
    told = {layout.read.worldly(at) for at in cells}
    return with_read(layout, *matters.without_ground(layout.read, rows, told.__contains__, "unlit"))


def rows_for(terms, layout):
    """Which rows serve block states, those of made names too."""
    return terms.rows.with_made(layout.rows)


def laid_out(program, folder, terms, layout):
    """Puts the cave and its table into the folder, for the planner."""
    put(folder, "cave.nbt", layout.data)
    table = tables.more_of(terms.table, layout.rows)
    path = table.path or put(folder, "table.toml", table.data)
    program.options = ["--table", path, "--rule", terms.rule, "--headroom", terms.told.headroom]


def planned(program, folder, terms, layout):
    """Has the planner plan a cave in a folder. Cells that no torch can light get slabs, and the rest is planned."""
    lines = []
    while True:
        laid_out(program, folder, terms, layout)
        dark = answers.darkness(program, folder)
        try:
            plan, verdict = answers.planned(program, folder, terms.told, dark.cells)
            break
        except Ended as ended:
            if UNLIGHTABLE not in ended.kept or layout.box is None:
                raise
            told = tuple(map(int, ended.kept[UNLIGHTABLE].split()))
        rows, need = rows_for(terms, layout), NEEDS[terms.rule]
        cells = slabs.needed(program, folder, layout.read, rows, dark.cells, need, told)
        if terms.told.barred:
            lines.append(f"{LEFT}{len(cells):,}")
            layout = without(layout, rows, cells)
        else:
            lines += slabs.lines(layout.box, cells)
            layout = with_slabs(layout, cells)
    if layout.box is not None and not terms.told.as_planned:
        rows, need = rows_for(terms, layout), NEEDS[terms.rule]
        plan, verdict = rearranged(program, folder, layout.read, rows, dark.cells, need, plan, verdict)
    if layout.box is not None and not layout.has_shell:
        lines = edges.lines(dark.edge, layout.box, terms.rows, dark.cells) + lines
    return Outcome(plan, dark.cells, answers.levels(program, folder, "plan.txt"), verdict, layout, lines)

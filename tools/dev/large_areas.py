"""An area of 512 x 128 x 512 as `light` plans it: how long its steps take, and whether what comes of it is right."""
import os
import random
import re
import sys
import tempfile
import time

import areas, caves, made_worlds, pieces, plans, worlds
from extents import Extent
from meaning import Cave
from repository import TOOLS
from shipped import Apart, class_of
from timing import timed

SIZE = WIDE, TALL, LONG = 512, 128, 512
APART, ROOM = 64, (44, 26, 44)  # how far the caverns lie from each other, and how much each takes
LOW, HIGH = 8, 90  # the floors of the lowest cavern and of the network
LIGHT = os.path.join(TOOLS, "user", "light")
EXTENT = Extent((0, 0, 0), tuple(side - 1 for side in SIZE))
# Runs a command, and prints in MB the peak of its largest process behind what the command prints: in a process between,
# since a child begins with the peak of the one above it.
PEAK = "import resource, subprocess, sys; ended = subprocess.call(sys.argv[1:]);" \
       " print(resource.getrusage(resource.RUSAGE_CHILDREN).ru_maxrss // 1024); sys.exit(ended)"
SIDES = ((1, 0, 0), (-1, 0, 0), (0, 1, 0), (0, -1, 0), (0, 0, 1), (0, 0, -1))


def made_caverns(rng):
    """A cavern in each square, by its lowest corner: the blocks of its cells."""
    found = {}
    for x in range(0, WIDE, APART):
        for z in range(0, LONG, APART):
            west, north = (rng.randrange(2, APART - side - 2) for side in ROOM[::2])
            corner = x + west, LOW + rng.randrange(40), z + north
            found[corner] = caves.cavern(rng.random(), ROOM)
    return found


def made_network(rng):
    """Tunnels across the whole area, and halls where some of them cross."""
    cells, lines = {}, range(APART // 2, WIDE, APART)
    for line in lines:
        for at in range(1, WIDE - 1):
            for beside in (0, 1):
                for y in (HIGH, HIGH + 1):
                    cells[at, y, line + beside] = cells[line + beside, y, at] = "minecraft:air"
    for x in lines:
        for z in lines:
            wide = rng.randrange(2, 9)
            cells.update({(x + a, HIGH + b, z + c): "minecraft:air" for a in range(-wide, wide + 1) for b in range(4)
                          for c in range(-wide, wide + 1)})
    return cells


def alone(program, folder, cavern):
    """How many torches the program proves to be the fewest of a cavern, by a structure file of it alone."""
    path = os.path.join(folder, "alone.nbt")
    with open(path, "wb") as file:
        file.write(caves.file_of(cavern, ROOM))
    ended = timed([program, "plan", path, "--turns", "1000000"])
    return int(re.match(rb"torches (\d+)$", ended.out, re.MULTILINE)[1]) if ended.status == 0 else None


def dark_in(cells, rows, torches):
    """The dark cells of the area with torches, by a calculation apart."""
    stone = class_of(rows, (made_worlds.STONE, {}))
    classes = {tuple(a + b for a, b in zip(at, step)): stone for at in cells for step in SIDES}
    named = {name: class_of(rows, (name, {})) for name in {*cells.values(), "minecraft:torch"}}
    classes.update((at, named[name]) for at, name in cells.items())
    classes.update((at, named["minecraft:torch"]) for at in torches)
    return Cave(SIZE, classes, 2, 1).dark


def planned(program, world, folder, jobs):
    """A run by `jobs` jobs: how it ended, with the peak of its largest process, and its torches by the world's
    coordinates, which are the area's own."""
    with tempfile.TemporaryDirectory(dir=folder) as place:
        corners = [*map(str, ["--from", *EXTENT.low, "--to", *EXTENT.high])]
        words = [sys.executable, LIGHT, "--world", world, *corners, "--into", place, "--jobs", str(jobs)]
        ended = timed([sys.executable, "-c", PEAK, "env", f"TORCHPLAN={program}", *words], 100_000)
        torches = []
        for name in os.listdir(place):
            with open(os.path.join(place, name, "plan.txt"), encoding="utf-8") as file:
                torches = [tuple(torch[:3]) for torch in plans.read_plan(file.read()).torches]
        *lines, peak = ended.out.splitlines()
        return ended._replace(out=b"\n".join(lines), megabytes=int(peak)), torches


def judged(ended, torches, closed, dark, left):
    """What is wrong with a run: `closed` is the sum of the fewest torches of each closed cave or None, `dark` how many
    cells were dark, and `left` how many are."""
    found = sum(y < HIGH - 1 for _, y, _ in torches)
    if closed is not None and found != closed:
        yield f"{found} torches in closed caves, where {closed} are the fewest"
    if left:
        yield f"{left} cells stay dark"
    if ended.status not in (0, 5) or f" for {dark:,} dark cells in ".encode() not in ended.out:
        yield f"status {ended.status}, {dark} dark cells: {(ended.out or ended.err).decode(errors='replace')}"


def tried(program, rows, seed):
    """Prints what was measured, and what of it is wrong; how much that is."""
    rng, wrong = random.Random(seed), 0
    say = lambda line: print(line, flush=True)
    with tempfile.TemporaryDirectory() as folder:
        caverns, cells, world = made_caverns(rng), made_network(rng), os.path.join(folder, "w")
        for corner, cavern in caverns.items():
            cells.update((tuple(a + b for a, b in zip(corner, at)), caves.NAMES[state]) for at, state in cavern.items())
        places = [(x, z) for x in range(-1, WIDE // 16 + 1) for z in range(-1, LONG // 16 + 1)]
        made_worlds.write_world(world, cells, places, range(-1, TALL // 16 + 1))
        measure_reading(world, rows, say)
        least = [alone(program, folder, cavern) for cavern in caverns.values()]
        closed = None if None in least else sum(least)
        say(f"{len(caverns)} caverns alone: {'some of them unproved' if closed is None else f'{closed} torches'}")
        dark = len(dark_in(cells, rows, ()))
        for jobs in (1, 4):
            ended, torches = planned(program, world, folder, jobs)
            left = len(dark_in(cells, rows, torches))
            faults = list(judged(ended, torches, closed, dark, left))
            wrong += len(faults)
            said = ended.out.decode(errors="replace").partition("\n")[0]
            say(f"{jobs} jobs: {ended.seconds:.0f} s by the clock, {ended.processor:.0f} s of processors,"
                f" {ended.megabytes} MB the largest process, {left} cells dark after the plan; {said}:"
                f" {'; '.join(faults) or 'ok'}")
    say(f"{wrong} differ")
    return wrong


def measure_reading(world, rows, say):
    """Tells how long it takes to find the caves of the area, and to cut them into pieces."""
    began = time.process_time()
    found, _ = areas.caves_of(worlds.World(world), EXTENT, Apart(rows), 2)
    read = time.process_time() - began
    cut = pieces.pieces_of(found)
    seconds, each = time.process_time() - began - read, read / (WIDE * TALL * LONG / 1e6)
    say(f"{len(found):,} caves read in {read:.1f} s, {each:.2f} s a million cells; cut in {seconds:.2f} s into"
        f" {len(cut)} pieces, {sum(not piece.seeds for piece in cut)} of them parts")

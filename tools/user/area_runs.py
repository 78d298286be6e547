"""Plans of an area of a world that no box holds, piece by piece. A piece that was planned is kept beside the folder
until all are, so a run that was stopped goes on where it was."""
import hashlib
import json
import multiprocessing
import os
import shutil
import signal
from collections import namedtuple
from multiprocessing.connection import wait

import extents
import parcels
import worlds
from areas import caves_of
from folders import put
from pieces import pieces_of
from refusals import Refusal

FAR = 27  # a torch lights two cells only where fewer steps lie between them
DONE, FAILED = "piece.json", "piece.failed"

# What came of a piece, by the world's coordinates: its folder, its torches, the blocks that they replace, the cells that
# were dark, how many torches it needs at least (None where its number is the least), what has to be known of it, the
# cells that get a slab, where torches are taken away, and the torches that light only what nobody gets to.
Result = namedtuple("Result", "folder torches before dark at_least notes slabs away apart", defaults=([], []))


class AreaRun:
    """A run over the pieces of an area.

    plan_piece  plans a piece into a folder, given the torches of whole caves and those of other parts that stand
                already: a Result without its folder
    work        the folder in which pieces are kept
    key         what the pieces depend on, beside where they lie
    note        says a line
    tells       whether to say how far the run is"""

    def __init__(self, plan_piece, work, key, note, tells=False):
        self.plan_piece, self.work, self.key, self.note, self.tells = plan_piece, work, key, note, tells
        self.failed = []

    def run(self, pieces, jobs, hosts=None):
        """The results of all pieces. Those of whole caves are planned side by side, each by a process, or on other
        machines; a part of a cave that is cut sees the torches of all that was planned before it."""
        os.makedirs(self.work, exist_ok=True)
        for name in os.listdir(self.work):  # what failed before is tried again
            if os.path.exists(os.path.join(self.work, name, FAILED)):
                shutil.rmtree(os.path.join(self.work, name))
        whole = [piece for piece in pieces if piece.seeds]
        if hosts is not None:
            self.on_hosts(whole, hosts)
        elif jobs > 1:
            self.side_by_side(whole, jobs)
        found = []
        for piece in whole:
            found.append(self.one(piece))
            self.tell(len(found), pieces)
        of_whole, of_parts = [torch for result in found if result for torch in result.torches], []
        for piece in pieces[len(whole):]:
            result = self.one(piece, of_whole, of_parts)
            of_parts += result.torches if result else []
            found.append(result)
            self.tell(len(found), pieces)
        return found

    def tell(self, count, pieces):
        if self.tells:
            self.note(f"{count:,} of {len(pieces):,} pieces")

    def side_by_side(self, pieces, jobs):
        """Plans pieces by `jobs` processes, which keep what they find."""
        context, running = multiprocessing.get_context("fork"), {}
        waiting = self.left(pieces)
        try:
            while waiting or running:
                while waiting and len(running) < jobs:
                    process = context.Process(target=self.aside, args=(waiting.pop(0),))
                    process.start()
                    running[process.sentinel] = process
                for ended in wait(list(running), 1):  # as lines_of, it looks up for signals
                    running.pop(ended).join()
                    self.tell(len(pieces) - len(waiting) - len(running), pieces)
        finally:
            for process in running.values():
                process.terminate()
            for process in running.values():
                process.join()

    def left(self, pieces):
        """The whole caves that aren't planned yet and haven't failed."""
        is_known = lambda folder: any(os.path.exists(os.path.join(folder, name)) for name in (DONE, FAILED))
        return [piece for piece in pieces if not is_known(self.folder_of(piece, [], []))]

    def on_hosts(self, pieces, hosts):
        """Has pieces planned on other machines. One that doesn't come back failed."""
        due = {os.path.basename(self.folder_of(piece, [], [])): piece for piece in self.left(pieces)}
        lines = hosts.answers(due, self.work) if due else ()
        for count, line in enumerate(lines, len(pieces) - len(due) + 1):
            self.take(line, due)
            self.tell(count, pieces)
        for piece in self.left(pieces):
            self.fail(piece, self.folder_of(piece, [], []), "no host planned it")

    def take(self, line, due):
        """Keeps what a machine answers."""
        try:
            name, files = parcels.opened(line)
        except Refusal as why:
            return self.note(f"a host answers otherwise than plan-piece: {why}")
        if FAILED in files or DONE not in files or name not in due:
            piece, why = due.get(name), files.get(FAILED, b"it isn't whole").decode("utf-8", "replace")
            return self.note(why) if piece is None else self.fail(piece, os.path.join(self.work, name), why)
        shutil.rmtree(os.path.join(self.work, name), ignore_errors=True)
        os.mkdir(os.path.join(self.work, name))
        for file in sorted(files, key=lambda file: file == DONE):
            put(os.path.join(self.work, name), file, files[file])

    def fail(self, piece, folder, why):
        """Names a piece that failed."""
        self.note(f"{extents.told(piece.extent)}: {why}")
        os.makedirs(folder, exist_ok=True)
        put(folder, FAILED, b"")

    def aside(self, piece):
        """Plans a piece in a process of its own. Ctrl-C is for the process above, which ends this one."""
        signal.signal(signal.SIGINT, signal.SIG_IGN)
        self.one(piece)

    def folder_of(self, piece, *torches):
        """Where a piece is kept that was planned as these torches stood."""
        told = json.dumps([self.key, piece.extent, piece.seeds, torches])
        return os.path.join(self.work, hashlib.sha256(told.encode()).hexdigest()[:16])

    def one(self, piece, of_whole=(), of_parts=()):
        """The result of a piece, which may be kept from an earlier run; None where it failed."""
        of_whole, of_parts = near(piece, of_whole), near(piece, of_parts)
        folder = self.folder_of(piece, of_whole, of_parts)
        if os.path.exists(os.path.join(folder, DONE)):
            with open(os.path.join(folder, DONE), encoding="utf-8") as file:
                return Result(folder, *json.load(file))
        if os.path.exists(os.path.join(folder, FAILED)):
            self.failed.append(piece)
            return None
        shutil.rmtree(folder, ignore_errors=True)
        os.mkdir(folder)
        try:
            result = self.plan_piece(piece, folder, of_whole, of_parts)
            keep(folder, result)
            return result._replace(folder=folder)
        except Refusal as why:
            self.failed.append(piece)
            self.fail(piece, folder, why)
            return None


def keep(folder, result):
    """Writes down what came of a piece that was planned into a folder."""
    put(folder, DONE, json.dumps(result[1:]).encode())


def near(piece, torches):
    """The torches whose light may get to a piece."""
    about = extents.grown(piece.extent, 2 * worlds.SIDE)
    return [torch for torch in torches if extents.within(about, extents.sized(tuple(torch[:3]), (1, 1, 1)))]


def scattered(cells):
    """How many of these cells lie so far from each other that no torch lights two of them."""
    kept, near = 0, {}
    for cell in sorted(cells):
        block = tuple(at // FAR for at in cell)
        others = (near.get((block[0] + x, block[1] + y, block[2] + z), ())
                  for x in (-1, 0, 1) for y in (-1, 0, 1) for z in (-1, 0, 1))
        if all(sum(abs(a - b) for a, b in zip(cell, other)) >= FAR for places in others for other in places):
            near.setdefault(block, []).append(cell)
            kept += 1
    return kept


def at_least(pieces, results):
    """How many torches an area needs at least: the sum over whole caves, and what the cut ones need together."""
    whole = sum(len(result.torches) if result.at_least is None else result.at_least
                for piece, result in zip(pieces, results) if piece.seeds)
    cut = [result for piece, result in zip(pieces, results) if not piece.seeds]
    return whole + scattered(tuple(at) for result in cut for at in result.dark)


def is_least(pieces, results):
    """Whether no fewer torches do."""
    return all(piece.seeds and result.at_least is None for piece, result in zip(pieces, results) if result.dark)


def files_key(world):
    """What the region files of a world are known by: names, sizes and times."""
    found = []
    for name in sorted(os.listdir(world.folder)):
        told = os.stat(os.path.join(world.folder, name))
        found.append([name, told.st_size, told.st_mtime_ns])
    return found


def pieces_in(world, extent, rows, headroom):
    """The pieces of an area, how many caves it has, the states of the torches that stand there by their places, and the
    names of blocks that no row fits."""
    caves, unknown = caves_of(world, extent, rows, headroom)
    return pieces_of(caves), len(caves), dict(torch for cave in caves for torch in cave.torches), unknown

"""A plan whose torches stand better, with its text and its proof. The planner has the last word."""
import os

import answers
import brightening
import certificates
import plans
from boxes import Box
from folders import put
from places import sign_of
from refusals import Refusal
from structures import box_file
from torches import state_of


def read(folder, name):
    with open(os.path.join(folder, name), encoding="utf-8") as file:
        return file.read()


def rearranged(program, folder, box, rows, dark, need, plan, verdict):
    """The plan with torches that were moved to where they stand better, and the verdict on its proof. It stays as it
    was where Python draws it otherwise than the planner, or the planner doesn't accept what was moved."""
    signs = list(map(sign_of, rows.rows_of(box.palette)))
    before = read(folder, "plan.txt")
    if not plan.torches or plans.text_of(plan, box, signs) != before:
        return plan, verdict
    number = lambda at: box.number(*at[:3])
    proof = None if verdict is None else read(folder, "plan.proof")
    regions = [(list(map(number, dark)), list(map(number, plan.torches)))]
    regions = regions if proof is None else certificates.regions_of(proof)
    moved = brightening.brightened(box, rows, answers.levels(program, folder), regions, need)
    if not moved:
        return plan, verdict
    torches = [moved.get(number(torch), torch) for torch in plan.torches]
    after = plans.text_of(plan._replace(torches=torches), box, signs)
    if proof is None:
        if not is_lit(program, folder, box, torches):
            return plan, verdict
    else:
        numbers = {old: number(new) for old, new in moved.items()}
        put(folder, "plan.proof", certificates.with_torches(proof, numbers).encode())
        try:
            verdict = answers.verdict(program, folder)
        except Refusal as why:
            if why.status != answers.REJECTED:
                raise
            put(folder, "plan.proof", proof.encode())
            return plan, answers.verdict(program, folder)
    put(folder, "plan.txt", after.encode())
    return plans.read_plan(after), verdict


def is_lit(program, folder, box, torches):
    """Whether the planner finds no dark cell once these torches stand."""
    states = list(map(state_of, torches))
    found = Box(box.size, [*box.palette, *states], box.cells[:])
    for index, torch in enumerate(torches):
        found.cells[box.number(*torch[:3])] = len(box.palette) + index
    cave = read_bytes(folder, "cave.nbt")
    put(folder, "cave.nbt", box_file(found))
    dark = answers.darkness(program, folder, "plan.lit").cells
    os.remove(os.path.join(folder, "plan.lit"))
    put(folder, "cave.nbt", cave)
    return not dark


def read_bytes(folder, name):
    with open(os.path.join(folder, name), "rb") as file:
        return file.read()

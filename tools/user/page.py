"""The page of a plan: one file for a browser, which needs no network. Its parts are in web/."""
import base64
import hashlib
import html
import itertools
import json
import os

import looks
import torches

WEB = os.path.join(os.path.dirname(os.path.abspath(__file__)), "web")
SCRIPTS = ["cave.js", "colours.js", "signs.js", "picture.js", "view.js", "list.js", "layers.js",
           "legend.js", "page.js"]


def varint(number):
    """A number in bytes of seven bits, the lowest first, each but the last with its highest bit set."""
    found = bytearray()
    while number > 127:
        found.append(number & 127 | 128)
        number >>= 7
    found.append(number)
    return bytes(found)


def text_of(numbers):
    """Numbers as base64 of their bytes."""
    return base64.b64encode(b"".join(map(varint, numbers))).decode()


def runs(values):
    """Values with many repeats: each with the length of its run."""
    pairs = ((value, len(list(run))) for value, run in itertools.groupby(values))
    return text_of(itertools.chain.from_iterable(pairs))


def gaps(numbers):
    """Ascending numbers: each by how much it is more than the one before."""
    return text_of(after - before for before, after in zip([0, *numbers], numbers))


def key_of(box, plan):
    """Under which name a browser keeps what is ticked off: another for each cave and plan."""
    told = json.dumps([box.name, box.size, box.corner, box.dimension, plan.torches])
    return "torchplan-" + hashlib.sha256(told.encode()).hexdigest()[:16]


def shown(state):
    """A block state as the page names it."""
    name, props = state
    return torches.argument((name[10:] if name.startswith("minecraft:") else name, props))


def data_of(box, plan, dark, levels, verdict, notes=(), away=(), total=None, apart=0):
    """What the scripts of the page read."""
    states = zip(box.palette, looks.kinds(box, plan))
    return {
        "name": box.name,
        "size": box.size,
        "corner": box.corner,
        "dimension": box.dimension,
        "palette": [[shown(state), kind, looks.colour_of(state[0])] for state, kind in states],
        "cells": runs(index + 1 for index in box.cells),
        "levels": runs(levels),
        "dark": gaps(sorted(box.number(*at) for at in dark)),
        "torches": plan.torches,
        "atLeast": plan.at_least,
        "verdict": verdict,
        "notes": list(notes),
        "away": list(away),
        "total": len(plan.torches) if total is None else total,
        "apart": apart,
        "key": key_of(box, plan),
    }


def script_text(data):
    """Data as a script's text, in which nothing ends the script."""
    return json.dumps(data, separators=(",", ":")).replace("<", "\\u003c").replace(">", "\\u003e")


def part(name):
    with open(os.path.join(WEB, name), encoding="utf-8") as file:
        return file.read()


def page(box, plan, dark, levels, verdict, **more):
    """The text of the page."""
    pieces = {
        "TITLE": html.escape(f"Torches for {box.name}" if box.name else "Torches"),
        "STYLE": part("page.css"),
        "DATA": script_text(data_of(box, plan, dark, levels, verdict, **more)),
        "SCRIPT": "\n".join(map(part, SCRIPTS)),
    }
    whole, *rest = part("page.html").split("{{")
    for piece in rest:
        name, after = piece.split("}}", 1)
        whole += pieces[name] + after
    return whole

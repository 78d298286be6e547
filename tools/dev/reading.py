"""Structures and block tables, read apart from the program, for the scripts beside this file."""
import tomllib
from collections import namedtuple

import repository  # it makes the modules of ../user known
from nbt_reader import root_of
from nbt_writer import COMPOUND, INT, LIST, TEXT
from refusals import Refusal as Fault
from rows import COLUMNS, Row
from shipped import row_of

SIDE, CELLS = 128, 262_144
I64 = range(-(2**63), 2**63)

# What the file says: the sides, the block states (a name and its properties), and which of them is at each position.
Structure = namedtuple("Structure", "size palette states")


def field(entries, name, said):
    if name not in entries:
        raise Fault(f"structure: missing {said}")
    return entries[name]


def three(tag, said):
    kind, held = tag
    if kind != LIST or held[0] != INT or len(held[1]) != 3:
        raise Fault(f"structure: wrong type of {said}")
    return tuple(held[1])


def compounds(tag, said):
    kind, held = tag
    if kind != LIST or held[1] and held[0] != COMPOUND:
        raise Fault(f"structure: wrong type of {said}")
    return held[1]


def state_of(entries, index):
    kind, name = field(entries, b"Name", f"palette[{index}].Name")
    if kind != TEXT:
        raise Fault(f"structure: wrong type of palette[{index}].Name")
    kind, props = entries.get(b"Properties", (None, None))
    props = props if kind == COMPOUND else {}
    return name, {key: value for key, (kind, value) in props.items() if kind == TEXT}


def structure_of(data):
    root = root_of(data)
    size = three(field(root, b"size", "size"), "size")
    if min(size) < 0:
        raise Fault("structure: negative size")
    if max(size) > SIDE or size[0] * size[1] * size[2] > CELLS:
        raise Fault("structure: too large")
    if b"palettes" in root:
        raise Fault("structure: palettes")
    palette = compounds(field(root, b"palette", "palette"), "palette")
    palette = [state_of(entries, index) for index, entries in enumerate(palette)]
    states = {}
    for index, entries in enumerate(compounds(field(root, b"blocks", "blocks"), "blocks")):
        at = three(field(entries, b"pos", f"blocks[{index}].pos"), f"blocks[{index}].pos")
        if not all(0 <= a < b for a, b in zip(at, size)):
            raise Fault(f"structure: block {index} outside the box")
        kind, state = field(entries, b"state", f"blocks[{index}].state")
        if kind != INT:
            raise Fault(f"structure: wrong type of blocks[{index}].state")
        if not 0 <= state < len(palette):
            raise Fault(f"structure: block {index} has no such state")
        states[at] = state
    return Structure(size, palette, states)


def has_wide(value):
    """Whether there is an integer that 64 bits don't hold."""
    inner = value.values() if isinstance(value, dict) else value if isinstance(value, list) else []
    return any(map(has_wide, inner)) or (isinstance(value, int) and value not in I64)


def is_number(value):
    return isinstance(value, int) and not isinstance(value, bool) and 0 <= value <= 15


def word_against(row):
    """What is wrong with an element of the array, if anything."""
    if not isinstance(row, dict):
        return "shape"
    if set(row) - {"name", "when", "opacity", "emission", *COLUMNS}:
        return "key"
    if not isinstance(row.get("name"), str):
        return "name"
    when = row.get("when", {})
    if not isinstance(when, dict) or not all(isinstance(value, str) for value in when.values()):
        return "when"
    if not is_number(row.get("opacity")) or not is_number(row.get("emission", 0)):
        return "number"
    flags = {column: row.get(column, False) for column in COLUMNS}
    if not all(isinstance(flag, bool) for flag in flags.values()):
        return "flag"
    plain = row["opacity"] == 0 and row.get("emission", 0) == 0 and flags["free"]
    if flags["put"] and not (plain and not (flags["stand"] or flags["top"] or flags["side"])):
        return "put"
    return None


def user_rows(data):
    """The rows of a user's table. ValueError where Python's reader, which is of TOML 1.0, takes no such text."""
    text = data.decode()
    doc = tomllib.loads(text[1:] if text.startswith("\ufeff") else text)
    if has_wide(doc):
        raise Fault("table: not TOML")
    rows = doc.get("row", [])
    if set(doc) - {"row"} or not isinstance(rows, list):
        raise Fault("table: row 0: shape")
    found = []
    for index, row in enumerate(rows):
        word = word_against(row)
        if word:
            raise Fault(f"table: row {index}: {word}")
        when = {key.encode(): value.encode() for key, value in row.get("when", {}).items()}
        flags = [row.get(column, False) for column in COLUMNS]
        found.append(Row(row["name"].encode(), when, row["opacity"], row.get("emission", 0), *flags))
    return found


def printed(name):
    plain = lambda byte: 0x20 <= byte <= 0x7E and byte != 0x5C
    return "".join(chr(byte) if plain(byte) else f"\\x{byte:02x}" for byte in name)


def classes_of(structure, rows):
    """The row of each position that has an entry."""
    used = sorted(set(structure.states.values()))
    by_state = {}
    for index in used:
        by_state[index] = row_of(rows, structure.palette[index])
        if by_state[index] is None:
            raise Fault(f"unknown block {printed(structure.palette[index][0])}")
    return {at: by_state[state] for at, state in structure.states.items()}

"""The shipped rows, as docs/FORMATS.md lists them, and which row serves a block state: apart from the program."""
import os
import re

from repository import TOP
from rows import COLUMNS, Row

ASKING = re.compile(r"(\w+) where `(\w+)` is `(\w+)`")


def listed():
    """The names, opacity, emission and columns of each line of the list. What a name asks for stands behind it in
    brackets."""
    with open(os.path.join(TOP, "docs", "FORMATS.md"), encoding="utf-8") as file:
        text = file.read().partition("\nThe shipped rows stand in this order")[2]
    full = re.search(r"\nFull blocks: ([^.]*)\.", text)[1].replace("\n", " ").split(", ")
    for line in re.findall(r"\n\| (.*) \|(?=\n)", text.partition("\nFull blocks: ")[0])[1:]:
        names, opacity, emission, columns = line.split(" | ")
        names = full if names.startswith("the full blocks") else re.split("[,;] ", ASKING.sub(r"\1[\2=\3]", names))
        yield names, int(opacity), int(emission), [] if columns == "none" else columns.split(", ")


def shipped_rows():
    """The rows that the program has in itself."""
    found = []
    for names, opacity, emission, columns in listed():
        for name in names:
            name, _, when = name.partition("[")
            when = dict([when.rstrip("]").encode().split(b"=")] if when else [])
            flags = [column in columns for column in COLUMNS]
            found.append(Row(b"minecraft:" + name.encode(), when, opacity, emission, *flags))
    return found


SHIPPED_ROWS = shipped_rows()


def row_of(rows, state):
    """The row of a block state: of a table's rows, then of the shipped ones, then of the table's wildcards."""
    name, props = state
    fits = lambda row: all(props.get(key) == value for key, value in row.when.items())
    for row in [*rows, *SHIPPED_ROWS]:
        if row.name == name and row.name != b"*" and fits(row):
            return row
    for row in rows:
        if row.name == b"*" and fits(row):
            return row
    return None


def class_of(rows, state):
    """The row of a block state whose name and properties are texts."""
    name, props = state
    return row_of(rows, (name.encode(), {key.encode(): value.encode() for key, value in props.items()}))


class Apart:
    """Which rows serve block states, as `Lookup` of tools/user tells it, by rows that are known here."""

    def __init__(self, rows=()):
        self.rows = list(rows)

    def with_made(self, rows):
        return Apart([*self.rows, *rows])

    def rows_of(self, states):
        rows = [class_of(self.rows, state) for state in states]
        return [row and row._replace(name=name.encode(), when={}) for row, (name, _) in zip(rows, states)]

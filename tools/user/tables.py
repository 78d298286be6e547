"""The table of blocks that a plan goes by: a vanilla table by the version of the game, with steady lights or without,
and a table of one's own before it."""
import os
import re
from collections import namedtuple

from refusals import unreadable
from rows import COLUMNS, Row
from toml_rows import inline_text_of, text_of
from versions import LATEST, release

FOLDER = os.path.join(os.path.dirname(os.path.abspath(__file__)), "..", "..", "examples", "tables")
# The first table knows the names of two releases' blocks, the second those from 1.16 to 1.21.11, old names too.
OLD, NEW = "vanilla-1.18.toml", "vanilla-1.21.toml"
OLD_VERSIONS = range(release("1.17").data_version, release("1.19").data_version)
STEADY = b"\n    # steady: "
ROW = re.compile(rb"^[ \t]*\[\[[ \t]*row[ \t]*\]\]", re.MULTILINE)
ARRAY = re.compile(rb"^[ \t]*row[ \t]*=[ \t]*\[", re.MULTILINE)
# A row of a vanilla table has a line of its own. Its entries, and the properties that it asks for.
VANILLA_ROW = re.compile(rb"^    \{ (.*) \},", re.MULTILINE)
ENTRY = re.compile(rb'(\w+) = (?:"([^"]*)"|\{ (.*?) \}|(\w+))')
ASKED = re.compile(rb'(\w+) = "([^"]*)"')

# What a table is called, and its text. One that lies in examples/tables has its path there, others none.
Table = namedtuple("Table", "name data path")


def vanilla_name(data_version):
    """The vanilla table for the game of that data version, or for one that isn't known (None)."""
    return OLD if data_version in OLD_VERSIONS else NEW


def is_later(data_version):
    """Whether the game is later than the tables know."""
    return data_version is not None and data_version > LATEST.data_version


def read(path):
    """The text of a table, as bytes."""
    try:
        with open(path, "rb") as file:
            return file.read()
    except OSError as fault:
        raise unreadable(path, fault) from None


def own_table(path):
    """A table of one's own."""
    return Table(os.path.basename(path), read(path), os.path.abspath(path))


def chosen(data_version, own=None, is_steady=False):
    """The table for a game's data version. Rows of one's own that are tables [[row]] stand before the vanilla rows; an
    array of rows, as the vanilla tables have it, stands alone."""
    name = vanilla_name(data_version)
    path = os.path.normpath(os.path.join(FOLDER, name))
    table = Table(name, read(path), path)
    if own is not None and ROW.search(own.data):
        rows = vanilla_rows(table.data.replace(STEADY, b"\n    ") if is_steady else table.data)
        told = f"{own.name}, then {name}" + (" with its steady lights" if is_steady else "")
        return Table(told, own.data + b"\n" + "".join(map(text_of, rows)).encode(), None)
    table = own or table
    if not is_steady:
        return table
    return Table(f"{table.name} with its steady lights", table.data.replace(STEADY, b"\n    "), None)


def vanilla_rows(data):
    """The rows of a vanilla table."""
    found = []
    for line in VANILLA_ROW.findall(data):
        told = {key.decode(): text or asked or word for key, text, asked, word in ENTRY.findall(line)}
        when, flags = dict(ASKED.findall(told.get("when", b""))), [column in told for column in COLUMNS]
        found.append(Row(told["name"], when, int(told["opacity"]), int(told.get("emission", 0)), *flags))
    return found


def with_rows(data, rows):
    """The text of a table with more rows: behind its tables [[row]], or first in its list of rows."""
    array = None if ROW.search(data) else ARRAY.search(data)
    if array is None:
        return data + b"\n" + "".join(map(text_of, rows)).encode()
    more = "".join(f"\n    {inline_text_of(row)}," for row in rows)
    return data[: array.end()] + more.encode() + data[array.end() :]


def more_of(table, rows):
    """The table with more rows."""
    return Table(table.name, with_rows(table.data, rows), None) if rows else table

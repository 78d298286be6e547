"""Rows of a block table as TOML (docs/FORMATS.md, "The user's table")."""
from rows import COLUMNS


def entries_of(row):
    """What a table says of a row, key by key."""
    when = ", ".join(f'"{key.decode()}" = "{value.decode()}"' for key, value in row.when.items())
    entries = [f'name = "{row.name.decode()}"', f"opacity = {row.opacity}"]
    entries += [f"when = {{ {when} }}"] * bool(when) + [f"emission = {row.emission}"] * bool(row.emission)
    return entries + [f"{column} = true" for column in COLUMNS if getattr(row, column)]


def text_of(row):
    """A row as a table [[row]]."""
    return "".join(line + "\n" for line in ["[[row]]", *entries_of(row)])


def inline_text_of(row):
    """A row as an element of a list."""
    return f"{{ {', '.join(entries_of(row))} }}"

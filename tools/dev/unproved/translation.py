"""Translates crates of the proved language into modules of one Rust crate. Contracts and ghost items go, and so do
impls that only the prover reads or that Rust does without. The module memory has what the language's std has in place
of Rust's: calls that may be refused memory."""
import os, re

# A comment, a text, a character, a word, or one more sign.
TOKEN = re.compile(r"""//[^\n]*|"(?:\\.|[^"\\])*"|'(?:\\.|[^'\\])'|\w+|.""", re.S)
CLOSING = {"{": "}", "(": ")", "[": "]"}
# An impl that goes.
NO_IMPL = re.compile(r"impl(?:<[^<>]*>)? (?:Model|Drop|Clone|Copy|Error|fmt::Display) for ")
# What is written otherwise in Rust.
CHANGES = [
    (r"#!?\[(?:tactic|cycle)\b[^\]]*\]", ""),
    (r"#\[derive\(Drop\)\]", ""),
    (r"(#\[derive\([^)]*), Drop\b", r"\1"),
    (r"([:+]) Drop\b", r"\1 Sized"),
    (r"use std::(?:marker|error|fmt)\b[^;]*;", ""),
    (r"use std::(?:alloc|sync|num)::", "use crate::memory::"),
    (r"use std::simd::prelude::\*;", "use std::simd::{Select, prelude::*};"),
    (r"\b(vec|format)!(\[|\()in [\w.]+; ", r"\1_in!\2"),
    (r"\.collect\((?=\w)", ".collect_in("),
    (r"\bpub\(crate\)", "pub"),
]


def behind_pair(tokens, at):
    """The index behind the pair of brackets that opens at this token."""
    depth, opening = 0, tokens[at]
    while True:
        depth += {opening: 1, CLOSING[opening]: -1}.get(tokens[at], 0)
        at += 1
        if depth == 0:
            return at


def behind_block(tokens, at):
    """The index behind the next block in braces."""
    return behind_pair(tokens, tokens.index("{", at))


def behind_item(tokens, at):
    """The index behind an item, which ends with a semicolon, or a field, which ends with a comma."""
    while tokens[at] not in ";,":
        at = behind_pair(tokens, at) if tokens[at] in CLOSING else at + 1
    return at + 1


def unproved(source):
    """The source without comments, clauses, ghost items and fields, and the impls that go."""
    tokens = [token for token in TOKEN.findall(source) if not token.startswith("//")]
    kept, at = [], 0
    while at < len(tokens):
        if tokens[at] in ("requires", "ensures"):
            at = behind_block(tokens, at)
        elif tokens[at] == "ghost":
            if kept[-2:] == ["pub", " "]:
                del kept[-2:]
            at = behind_item(tokens, at)
        elif tokens[at] == "impl" and NO_IMPL.match("".join(tokens[at : at + 40])):
            at = behind_block(tokens, at)
        else:
            kept.append(tokens[at])
            at += 1
    return "".join(kept)


def translated(crate, crates, source):
    """A file of the crate, one of `crates`, as a Rust module."""
    text = unproved(source)
    # Each crate is a module at the root of the Rust crate.
    root = lambda path: f"crate::{crate if path[1] == 'crate' else path[1]}::"
    text = re.sub(rf"(?<![\w:])({'|'.join(['crate', *crates])})::", root, text)
    for pattern, change in CHANGES:
        text = re.sub(pattern, change, text)
    return "use crate::memory::*;\n" + text


def crates_below(top, names):
    """These crates of the repository and all below them."""
    with open(os.path.join(top, "crates.txt")) as file:
        rows = [row.split(":") for row in file if ":" in row and not row.startswith("#")]
    below = {crate.split()[0]: others.split() for crate, others in rows}
    found, left = set(), list(names)
    while left:
        crate = left.pop()
        if crate not in found:
            found.add(crate)
            left += below[crate]
    return sorted(found)


def translate(top, names, folder):
    """Writes these crates of the repository and those below them into the folder, and declares them in its main.rs."""
    crates = crates_below(top, names)
    with open(os.path.join(folder, "main.rs"), "a") as file:
        file.write("".join(f"mod {crate};\n" for crate in crates))
    for crate in crates:
        os.mkdir(os.path.join(folder, crate))
        sources = os.path.join(top, "crates", crate, "src")
        for name in os.listdir(sources):
            told = "mod.rs" if name == "lib.rt" else name[:-3] + ".rs"
            with open(os.path.join(sources, name)) as file, open(os.path.join(folder, crate, told), "w") as new:
                new.write(translated(crate, crates, file.read()))

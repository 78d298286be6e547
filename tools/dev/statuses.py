"""Each status of the program, and what a terminal is told without being asked for."""
import os, pty, re, resource, time

from outputs import drained

CUT = ("free cells lie at the box's edge: 1 below; outside counts as solid nothing, without ground, light or room, so "
       "save a block more of floor, walls and ceiling")
USAGE = "error: a word of the command line isn't UTF-8\n"
MEMORY = 48 << 20
# A line about a plan: the region, how many there are, the floor, the size, and the turns.
TURNS = re.compile(r"torchplan: region (\d+) of (\d+): (\d+) to (\d+) torches, turn (\d+)")
# The line behind them.
ENDED = "torchplan: search ended, with at most {} turns for a region"
# How many turns each region of the slow cave may take. It needs more, and these take seconds.
MANY_TURNS = 500
# Within this number of seconds each region has a line.
FEW_SECONDS = 3


def try_statuses(cases):
    """The statuses that no other case has, and what goes with them."""
    path = cases.path
    cases.case("a cell that no torch lights", cases.run(["plan", path("felt.nbt"), "--table", path("felt.toml"),
               "--proof", path("unlit")]), 3, "unlightable 1 1 1", b"")
    cases.holds("its proof is empty", cases.bytes_of("unlit") == b"", "it isn't")
    ended = cases.run(["plan", path("ring.nbt"), "--turns", "1", "--proof", path("stopped")])
    cases.case("a plan whose turns are spent", ended, 5, None, None, "")
    cases.holds("its first line", re.match(rb"torches \d+ at-least \d+\n", ended.stdout), f"{ended.stdout[:40]!r}")
    cases.holds("its proof is empty, and nothing is told", cases.bytes_of("stopped") == b"" and ended.stderr == b"",
                "it isn't, or something is")
    ended = cases.run(["plan", path("ring.nbt"), "--proof", path("spent")])
    cases.case("the plan with its turns", ended, 0)
    ended = cases.run(["plan", path("floors.nbt")], preexec_fn=lambda: resource.setrlimit(resource.RLIMIT_AS,
                      (MEMORY, MEMORY)))
    cases.case("a plan without memory for it", ended, 7, "out of memory", b"")
    for words in [["--help"], ["plan", "--help"], ["--version"]]:
        ended = cases.run(words)
        cases.case(f"{' '.join(words)}", ended, 0, None, None, "")
        cases.holds("it is on the output", ended.stdout.startswith(b"torchplan") or b"Usage: " in ended.stdout,
                    f"{ended.stdout[:40]!r}")
    for words in [[], ["draw"], ["plan"], ["plan", path("hall.nbt"), "--rule", "1.16"], ["check", path("hall.nbt")]]:
        ended = cases.run(words)
        cases.case(f"a mistake in usage, {words[-1:]}", ended, 2, None, b"", "Usage: ")
    for words in [[b"\xff"], [b"dark", b"\xff.nbt"], [b"plan", os.fsencode(path("hall.nbt")), b"--proof", b"\xc3"]]:
        ended = cases.run(words)
        cases.case(f"a word that isn't UTF-8, {words[-1]}", ended, 2, None, b"", USAGE)
    words = ["plan", path("felt.nbt"), "--table", path("felt.toml"), "--headroom", "2", "--rule", "1.17", "--proof",
             path("all"), "--workers", "1", "--turns", "9", "--progress"]
    cases.case("all options at once", cases.run(words), 3, "unlightable 1 1 1", b"")


def at_terminal(cases, words, streams):
    """A run of which these streams are one terminal, and what came there."""
    ours, theirs = pty.openpty()
    ended = cases.run(words, **{stream: theirs for stream in streams})
    came = drained(ours)
    os.close(ours)
    os.close(theirs)
    return ended, came.replace(b"\r\n", b"\n").decode(errors="replace")


def try_cut(cases):
    """A box without its floor: a terminal is told of it, and who asks for it is; else nobody."""
    words = cases.path("cut.nbt")
    for name, text in [("dark", b"dark 0\n"), ("plan", b"torches 0\ndark 0\n")]:
        ended = cases.run([name, words])
        cases.case(f"{name} of a box without its floor", ended, 0, None, text)
        cases.holds("its standard error", ended.stderr == b"", f"{ended.stderr!r}")
        cases.case(f"{name} of that box with --progress", cases.run([name, words, "--progress"]), 0, CUT, text)
        ended, came = at_terminal(cases, [name, words], ["stderr"])
        cases.case(f"{name} of that box at a terminal", ended, 0, None, text)
        cases.holds("what the terminal is told", came == f"torchplan: {CUT}\n", f"{came!r}")
        ended, came = at_terminal(cases, [name, words], ["stdout"])
        cases.holds(f"{name} of that box, of which the output alone is a terminal", ended.stderr == b"",
                    f"{ended.stderr!r}")


def is_right(region, regions, floor, size, turn):
    """Whether a line about the slow cave, of two regions, may be so."""
    return regions == 2 and 1 <= region <= 2 and 1 <= floor < size and 1 <= turn <= MANY_TURNS


def try_progress(cases):
    """The lines about a plan of some seconds: at most one a second, with a floor below the size, and of a region ever
    more turns, within the limit; and one more with the turns of a region that used them up."""
    words = ["plan", cases.path("slow.nbt"), "--rule", "1.17", "--turns", str(MANY_TURNS)]
    began = time.monotonic()
    ended = cases.run([*words, "--progress"])
    took = time.monotonic() - began
    cases.case("a plan of some seconds", ended, 5)
    if took < FEW_SECONDS:
        cases.left_out("the lines about it", f"it took {took:.1f} s alone")
        return
    *lines, last = ended.stderr.decode(errors="replace").splitlines() or [""]
    seen = [] if 2 <= len(lines) <= took + 1 else [f"{len(lines)} lines in {took:.1f} s"]
    seen += [] if last == ENDED.format(MANY_TURNS) else [last]
    told = [TURNS.fullmatch(line) for line in lines]
    seen += [line for line, each in zip(lines, told) if not (each and is_right(*map(int, each.groups())))]
    order = [(int(each.group(1)), int(each.group(5))) for each in told if each]
    if order != sorted(set(order)) or {region for region, _ in order} != {1, 2}:
        seen.append(f"regions and turns are {order}")
    cases.report("the lines about it", seen)
    ended = cases.run(words)
    cases.case("that plan where nobody asks for lines", ended, 5)
    cases.holds("there are none", ended.stderr == b"", f"{ended.stderr[:60]!r}")

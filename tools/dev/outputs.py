"""OUT that is the output, or a stream, by whatever name; and disks and folders that don't take it."""
import contextlib, fcntl, os, pty, resource, select, shutil, signal, socket, subprocess, termios

from cases import LIMIT

OLD = b"what stood there"
MISTAKE = "error: --proof would write over a file that is read, or over the output\n"
NO_FILE = "error: --proof names a file, and - is none\n"
NAMES = ["/dev/stdout", "/dev/fd/1", "/proc/self/fd/1"]
# How many bytes a pipe holds at least.
PAGE = 4096
# Two disks in memory, each with one file and so with one number for it; or one that holds a page.
TWINS = """mount -t tmpfs none "$1" && mount -t tmpfs none "$2" && cp "$3" "$1/file" && : >"$2/file" || exit 99
[ "$(stat -c %i "$1/file")" = "$(stat -c %i "$2/file")" ] || exit 99
"$0" plan "$1/file" --proof "$2/file" && "$0" check "$1/file" "$2/file" """
FULL_OF_PROOF = """mount -t tmpfs -o size=4k none "$1" || exit 99
"$0" plan "$2" --proof "$1/proof"; ended=$?; cp "$1/proof" "$3"; exit "$ended" """
FULL_OF_TEXT = """mount -t tmpfs -o size=4k none "$1" || exit 99
"$0" dark "$2" >"$1/text"; ended=$?; cp "$1/text" "$3"; exit "$ended" """


def drained(file):
    """What a terminal or a pipe has to read."""
    os.set_blocking(file, False)
    with contextlib.suppress(BlockingIOError, OSError):
        return os.read(file, 1 << 20)
    return b""


def refused(cases, name, ended, told=MISTAKE):
    """A mistake in usage: nothing is printed, as far as that is kept, and what is wrong is told."""
    cases.case(name, ended, 2, None, ended.stdout and b"", told)


def plan(proof, *more):
    return ["plan", "hall.nbt", "--proof", proof, *more]


def try_pipes(cases):
    """The output is a pipe, without a name or with one."""
    for name in NAMES:
        ended = cases.run(plan(name), cwd=cases.folder)
        refused(cases, f"the proof is the output, a pipe, as {name}", ended)
    os.mkfifo(cases.path("both"))
    held = os.open(cases.path("both"), os.O_RDWR | os.O_NONBLOCK)
    for name in ["both", *NAMES]:
        refused(cases, f"the proof is the output, a pipe with a name, as {name}",
                cases.run(plan(name), cwd=cases.folder, stdout=held))
        cases.holds(f"nothing on that pipe, as {name}", drained(held) == b"", "something")
    ended = cases.run(["plan", "both", "--proof", "both"], cwd=cases.folder)
    refused(cases, "the proof is the structure, a pipe with a name", ended)
    os.close(held)
    reads, writes = os.pipe()
    ended = cases.run(["plan", "-", "--proof", "/dev/stdin"], cwd=cases.folder, stdin=reads)
    refused(cases, "the proof is standard input, a pipe", ended)
    os.close(reads)
    os.close(writes)


def try_other_pipes(cases, text):
    """A pipe that isn't the output is as good as a file."""
    reads, writes = os.pipe()
    ended = cases.run(plan(f"/dev/fd/{writes}"), cwd=cases.folder, pass_fds=[writes])
    os.close(writes)
    cases.case("a proof to a pipe of its own", ended, 0, None, text)
    cases.holds("what comes of that pipe", drained(reads).endswith(b"\nend\n"), "no whole proof")
    os.close(reads)
    for name in ["/dev/null", *NAMES]:
        with open("/dev/null", "wb") as null:
            ended = cases.run(plan(name), cwd=cases.folder, stdout=null)
        cases.case(f"proof and plan to the null device, as {name}", ended, 0)


def try_files(cases):
    """The output is a file."""
    cases.put("text", OLD)
    os.link(cases.path("text"), cases.path("text-hard"))
    os.symlink("text", cases.path("text-soft"))
    for name in ["text", "./text", "text-hard", "text-soft", *NAMES]:
        with open(cases.path("text"), "ab") as file:
            ended = cases.run(plan(name), cwd=cases.folder, stdout=file)
        refused(cases, f"the proof is the output, a file, as {name}", ended)
        cases.holds(f"that file as {name} is left as it was", cases.bytes_of("text") == OLD, "it isn't")
    ours, theirs = socket.socketpair()
    for name in NAMES:
        ended = cases.run(plan(name), cwd=cases.folder, stdout=theirs)
        refused(cases, f"the proof is the output, a socket, as {name}", ended)
    ours.close()
    theirs.close()
    for name in ["/dev/full", *NAMES]:
        with open("/dev/full", "wb") as file:
            ended = cases.run(plan(name), cwd=cases.folder, stdout=file)
        refused(cases, f"the proof is the output, a full device, as {name}", ended)


def try_terminals(cases, text):
    """The output is a terminal, that which the program was started at."""
    def take_terminal():
        os.setsid()
        fcntl.ioctl(1, termios.TIOCSCTTY, 0)

    ours, theirs = pty.openpty()
    for name in [os.ttyname(theirs), "/dev/tty", *NAMES]:
        ended = cases.run(plan(name), cwd=cases.folder, stdout=theirs, preexec_fn=take_terminal)
        refused(cases, f"the proof is the output, a terminal, as {name}", ended)
        cases.holds(f"nothing on that terminal, as {name}", drained(ours) == b"", "something")
    ended = cases.run(plan(os.ttyname(theirs)), cwd=cases.folder)
    cases.case("a proof to a terminal that isn't the output", ended, 0, None, text)
    cases.holds("what comes there", b"end" in drained(ours), "no proof")
    os.close(ours)
    os.close(theirs)


def try_dash(cases, text):
    """`-` is no file for a proof."""
    for words in [plan("-"), ["plan", "-", "--proof", "-"], ["plan", "none.nbt", "--proof=-"]]:
        with open(cases.path("hall.nbt"), "rb") as file:
            ended = cases.run(words, cwd=cases.folder, stdin=file)
        refused(cases, " ".join(words), ended, NO_FILE)
        cases.holds("no file - is made", cases.bytes_of("-") is None, "it is")
    ended = cases.run(plan("./-"), cwd=cases.folder)
    cases.case("a proof to a file of the name -", ended, 0, None, text)
    cases.put("-", b"")
    os.link(cases.path("-"), cases.path("dash"))
    for name in ["./-", "dash"]:
        refused(cases, f"the proof is a table of the name -, as {name}",
                cases.run(plan(name, "--table", "-"), cwd=cases.folder))
    os.remove(cases.path("-"))


def try_over(cases, text):
    """A proof that was there, longer or shorter, is gone."""
    proof = cases.bytes_of("out")
    for name, old in [("shorter", b"torchproof 4\n"), ("longer", proof + proof)]:
        cases.put("over", old)
        cases.case(f"a proof over a {name} one", cases.run(plan("over"), cwd=cases.folder), 0, None, text)
        cases.holds("it is the new one and no more", cases.bytes_of("over") == proof, "it isn't")


def try_rights(cases):
    """Files and folders that a user may not read or write."""
    os.mkdir(cases.path("locked"))
    os.chmod(cases.path("locked"), 0o555)
    cases.put("kept.proof", OLD)
    os.chmod(cases.path("kept.proof"), 0o444)
    cases.put("hidden.nbt", b"")
    os.chmod(cases.path("hidden.nbt"), 0)
    for name, words, line in [
        ("a proof in a folder that may not be written", plan("locked/out"), "cannot write"),
        ("a proof that may not be written", plan("kept.proof"), "cannot write"),
        ("a structure that may not be read", ["plan", "hidden.nbt"], "cannot read"),
        ("a table that may not be read", ["plan", "hall.nbt", "--table", "hidden.nbt"], "cannot read"),
        ("a proof that may not be read", ["check", "hall.nbt", "hidden.nbt"], "cannot read"),
    ]:
        ended = cases.as_user(words, cwd=cases.folder)
        if ended is None:
            cases.left_out(name, "this system lets root be nobody else")
        else:
            cases.case(name, ended, 6, line, b"")
    cases.holds("nothing was made there", os.listdir(cases.path("locked")) == []
                and cases.bytes_of("kept.proof") == OLD, "something was")
    os.chmod(cases.path("hidden.nbt"), 0o600)


def within(limit):
    """In a child: no file may grow beyond `limit` bytes; a write that would fails."""
    signal.signal(signal.SIGXFSZ, signal.SIG_IGN)
    resource.setrlimit(resource.RLIMIT_FSIZE, (limit, limit))


def try_limits(cases):
    """Files that can't grow: a beginning is written, and that it isn't all is told."""
    whole = cases.bytes_of("rooms.proof")
    ended = cases.run(["plan", "rooms.nbt", "--proof", "cut.proof"], cwd=cases.folder, restore_signals=False,
                      preexec_fn=lambda: within(PAGE))
    cases.case("a proof that may not grow", ended, 6, "cannot write", b"")
    cases.holds("its beginning is there", cases.bytes_of("cut.proof") == whole[:PAGE], "it isn't")
    with open(cases.path("cut.text"), "wb") as file:
        ended = cases.run(["dark", "floors.nbt"], cwd=cases.folder, stdout=file, restore_signals=False,
                          preexec_fn=lambda: within(PAGE))
    cases.case("dark cells to a file that may not grow", ended, 6, "cannot write")
    cases.holds("their beginning is there", cases.bytes_of("cut.text") == cases.bytes_of("floors.dark")[:PAGE], "it isn't")


def by_shell(cases, name, script, *words):
    """A shell that may mount disks of its own; None where this system doesn't let it."""
    for word in words:
        if not os.path.exists(cases.path(word)):
            os.mkdir(cases.path(word))
    command = ["--mount", "--map-root-user", "sh", "-c", script, cases.open_to_all(), *words]
    ended = shutil.which("unshare") and cases.run(command, "unshare", cwd=cases.folder)
    if not ended or ended.returncode == 99 or ended.stderr.startswith(b"unshare: "):
        cases.left_out(name, "this system mounts no disk here")
        return None
    return ended


def try_disks(cases, verdict):
    """Two disks, and one that is full."""
    name = "a proof whose file has the number of the structure's, on another disk"
    cases.put("number.nbt", cases.bytes_of("hall.nbt"))
    ended = by_shell(cases, name, TWINS, "disk", "other", "number.nbt")
    if ended is not None:
        cases.holds(name, ended.returncode == 0 and ended.stdout.endswith(verdict),
                    f"status {ended.returncode}, {ended.stdout!r}, {ended.stderr!r}")
    for name, script, cave, of in [("a proof to a disk that fills up", FULL_OF_PROOF, "rooms.nbt", "rooms.proof"),
                                   ("dark cells to a disk that fills up", FULL_OF_TEXT, "floors.nbt", "floors.dark")]:
        cases.put("kept", b"")
        ended = by_shell(cases, name, script, "disk", cave, "kept")
        if ended is not None:
            cases.case(name, ended, 6, "cannot write", b"")
            cases.holds("its beginning is there", cases.bytes_of("kept") == cases.bytes_of(of)[:PAGE], "it isn't")


def try_readers(cases):
    """Readers that go away before all is written."""
    started = subprocess.Popen([cases.program, "dark", cases.path("floors.nbt")], stdin=subprocess.DEVNULL,
                               stdout=subprocess.PIPE, stderr=subprocess.PIPE)
    begun = os.read(started.stdout.fileno(), 100)
    started.stdout.close()
    said = started.stderr.read()
    started.stderr.close()
    started.wait(LIMIT)
    cases.case("dark cells for a reader that goes away", subprocess.CompletedProcess([], started.returncode, b"", said),
               6, "cannot write")
    cases.holds("it had their beginning", begun.startswith(b"dark "), f"{begun!r}")
    os.mkfifo(cases.path("short"))
    reader = os.open(cases.path("short"), os.O_RDONLY | os.O_NONBLOCK)
    fcntl.fcntl(reader, fcntl.F_SETPIPE_SZ, PAGE)
    started = subprocess.Popen([cases.program, "plan", cases.path("rooms.nbt"), "--proof", cases.path("short")],
                               stdin=subprocess.DEVNULL, stdout=subprocess.PIPE, stderr=subprocess.PIPE)
    select.select([reader], [], [], LIMIT)
    begun = os.read(reader, 1)
    os.close(reader)
    out, said = started.communicate(timeout=LIMIT)
    ended = subprocess.CompletedProcess([], started.returncode, out, said)
    cases.case("a proof for a reader that goes away", ended, 6, "cannot write", b"")
    cases.holds("it had its beginning", begun == b"t", f"{begun!r}")


def try_outputs(cases, text, verdict):
    """All of these. In the folder are hall.nbt and its proof `out`; rooms.nbt, whose proof is longer than a page; and
    floors.nbt, whose dark cells are more than a pipe holds. The text is that of the hall's plan."""
    cases.run(["plan", "rooms.nbt", "--proof", "rooms.proof"], cwd=cases.folder)
    cases.put("floors.dark", cases.run(["dark", "floors.nbt"], cwd=cases.folder).stdout)
    try_pipes(cases)
    try_other_pipes(cases, text)
    try_files(cases)
    try_terminals(cases, text)
    try_dash(cases, text)
    try_over(cases, text)
    try_rights(cases)
    try_limits(cases)
    try_disks(cases, verdict)
    try_readers(cases)

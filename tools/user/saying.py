"""What a run says: notes on standard error, its answer on standard output."""
import sys

from refusals import printable, unwritable


def note(line):
    """Says a line beside the answer, at once."""
    print(f"light: {printable(line)}", file=sys.stderr, flush=True)


def answer(lines):
    """Prints what the run answers."""
    try:
        for line in lines:
            print(printable(line))
        sys.stdout.flush()
    except OSError as fault:
        raise unwritable("to standard output", fault) from None


def counted(count, one, many):
    return f"{count:,} {one if count == 1 else many}"

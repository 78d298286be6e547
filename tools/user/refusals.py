"""Why there is no plan, in one line."""

# The status that a run ends by, as the program's own: a refused input, a wrong command line, reading or writing that
# failed, refused memory.
REFUSED, USAGE, FAILED, MEMORY = 1, 2, 6, 7


def printable(text):
    """A text in one line that a terminal shows: what isn't printable is escaped."""
    return "".join(one if one.isprintable() else one.encode("unicode_escape").decode() for one in text)


class Refusal(Exception):
    """A line that says why there is no plan, and the status to end by.

    has_place  whether the line says where: of a damaged piece of a file it doesn't, until who reads the file adds it"""

    def __init__(self, line, status=REFUSED, has_place=True):
        super().__init__(printable(line))
        self.status, self.has_place = status, has_place

    def at(self, place):
        """The refusal with the place where it is, unless it has one."""
        return self if self.has_place else Refusal(f"{place}: {self}", self.status)


def damaged(what):
    """The refusal of a piece of a file, without its place."""
    return Refusal(what, has_place=False)


def unreadable(path, fault):
    """The refusal of a file that the system doesn't let read."""
    return Refusal(f"cannot read {fault.filename or path}: {fault.strerror or fault}", FAILED)


def unwritable(path, fault):
    """The refusal of a file or folder that the system doesn't let write."""
    return Refusal(f"cannot write {path}: {fault.strerror or fault}", FAILED)

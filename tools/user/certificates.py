"""The parts of a certificate that tell where torches stand (docs/FORMATS.md, "Certificate"): the proof that no fewer do
speaks of the caves' cells alone, so the torches may be others, as many in each region."""


def regions_of(text):
    """The regions of a certificate: the numbers of the dark cells and of the torches of each."""
    return list(zip(region_lines(text, "D "), region_lines(text, "T ")))


def region_lines(text, word):
    """The numbers of the first line of each region that begins so: below it D is a node of the tree."""
    found, is_due = [], False
    for line in text.splitlines():
        if line.startswith("region "):
            is_due = True
        elif is_due and line.startswith(word):
            found.append([int(number) for number in line.split()[1:]])
            is_due = False
    return found


def with_torches(text, moved):
    """The certificate with torches that were moved: the new number of each by the old one."""
    lines, is_due = [], False
    for line in text.splitlines():
        if line.startswith("region "):
            is_due = True
        elif is_due and line.startswith("T "):
            numbers = sorted(moved.get(int(number), int(number)) for number in line.split()[1:])
            line, is_due = " ".join(["T", *map(str, numbers)]), False
        lines.append(line)
    return "".join(line + "\n" for line in lines)

"""The judge of certificates, on a cave told by its coverage, and certificates made and forged at random. What has to
come is docs/FORMATS.md ("Certificate", "Verdict")."""
import random
import unittest
from collections import namedtuple

import paths  # it makes the modules of tools/dev known

import damage
import random_caves
import trees
from caves import FELT_TABLE
from covers import cover_number
from judge import Coverage, verdict
from meaning import Cave
from reading import classes_of, structure_of, user_rows

Told = namedtuple("Told", "dark lit by")
Box = namedtuple("Box", "size headroom need")

# Dark cells 0, 1 and 2, of which each torch lights two, and 6, which each lights: two torches are needed. A torch at
# 7 lights none. The last cell is 11.
LIT = {3: {0, 1, 6}, 4: {1, 2, 6}, 5: {0, 2, 6}, 7: set()}
TRIANGLE = Told([0, 1, 2, 6], LIT, {cell: [place for place in LIT if cell in LIT[place]] for cell in (0, 1, 2, 6)})


def certificate(*tree, version=4, need=1, torches="3 4"):
    """The text with this tree, whose first line is the ninth, or in version 1 the eighth."""
    needs = [] if version == 1 else [f"need {need}"]
    head = [f"torchproof {version}", "box 3 2 2", "headroom 2", *needs, "regions 1", "region 4 2", "D 0 1 2 6"]
    return "".join(f"{line}\n" for line in [*head, f"T {torches}", *tree, "end"]).encode()


class Picks(unittest.TestCase):
    def told(self, due, *tree, **more):
        need = more.get("need", 1)
        self.assertEqual(verdict(Box((3, 2, 2), 2, need), certificate(*tree, **more), TRIANGLE), f"{due}\n", tree)

    def test_a_place_is_chosen_or_barred(self):
        self.told("accepted 2", "P 3", "L 1 2", "L 2 0 1")
        self.told("accepted 2", "P 3", "L 1 2", "L 2 0 1", need=8)
        self.told("accepted 2", "P 3", "B 2 2", "L 0", "L 0", "B 0 1", "L 1 1")
        self.told("accepted 2", "P 3", "P 4", "L 0", "L 1 2", "P 5", "L 1 1", "L 2 0 1")

    def test_nothing_is_asked_of_what_the_place_lights(self):
        self.told("accepted 2", "P 7", "L 1 0", "P 3", "L 1 2", "L 2 0 1")
        self.told("accepted 2", "P 3", "P 7", "L 0", "L 1 2", "L 2 0 1")

    def test_no_legal_place_is_a_bad_node(self):
        for cell in (0, 1, 2, 6, 8, 11):
            self.told("rejected: bad node line 9", f"P {cell}", "L 1 2", "L 2 0 1")

    def test_a_chosen_place_is_a_bad_node(self):
        self.told("rejected: bad node line 10", "P 3", "P 3", "L 1 2", "L 1 2", "L 2 0 1")
        self.told("rejected: bad node line 11", "P 3", "P 4", "P 3", "L 0", "L 0", "L 1 2", "L 2 0 1")
        self.told("rejected: bad node line 10", "B 0 2", "P 3", "L 1 2", "L 1 2", "L 1 1")

    def test_a_barred_place_is_a_bad_node(self):
        self.told("rejected: bad node line 11", "P 3", "L 1 2", "P 3", "L 2 0 1", "L 2 0 1")
        self.told("rejected: bad node line 10", "E 7 3", "P 7", "L 1 0", "L 1 0")
        # the second kid of a branch, below which the first one's place is barred
        self.told("rejected: bad node line 11", "B 0 2", "L 1 2", "P 3", "L 1 1", "L 1 1")

    def test_what_stands_above_goes_on_below_both_trees(self):
        # barred above, and left out above
        for tree in (["P 3", "P 7", "L 1 2", "L 1 2", "L 2 0 1"], ["P 3", "L 1 2", "P 7", "L 2 0 1", "L 2 0 1"]):
            at = 10 + tree.index("P 7")
            self.told(f"rejected: bad node line {at}", "E 7 3", *tree)
        for tree in (["P 3", "D 1 6", "L 1 2", "L 2 0 1"], ["P 3", "L 1 2", "D 1 6", "L 2 0 1"]):
            at = 10 + tree.index("D 1 6")
            self.told(f"rejected: bad node line {at}", "D 1 6", *tree)
        # chosen above, for the number
        self.told("accepted 2", "B 0 2", "P 7", "L 0", "L 1 2", "P 4", "L 0", "L 1 1")

    def test_bars_below(self):
        self.told("accepted 2", "P 3", "E 4 5", "L 1 2", "L 2 0 1")
        self.told("rejected: bad node line 10", "P 3", "E 3 4", "L 1 2", "L 2 0 1")
        self.told("rejected: bad node line 10", "P 3", "E 4 3", "L 1 2", "L 2 0 1")
        self.told("rejected: bad node line 11", "P 3", "L 1 2", "E 7 3", "L 2 0 1")

    def test_below_an_omission_and_above_one(self):
        self.told("accepted 2", "D 1 6", "P 3", "L 1 2", "L 2 0 1")
        self.told("accepted 2", "P 3", "D 3 0 1 6", "L 1 2", "D 1 6", "L 2 0 1")
        self.told("rejected: bad node line 10", "D 1 6", "P 6", "L 1 2", "L 2 0 1")

    def test_trees_exchanged(self):
        self.told("rejected: bad node line 10", "P 3", "L 2 0 1", "L 1 2")

    def test_a_tree_too_few_or_too_many(self):
        self.told("rejected: syntax line 11", "P 3", "L 1 2")
        self.told("rejected: syntax line 10", "P 3")
        self.told("rejected: syntax line 12", "P 3", "L 1 2", "L 2 0 1", "L 2 0 1")

    def test_too_weak(self):
        self.told("rejected: too weak line 10", "P 3", "L 0", "L 2 0 1")
        self.told("rejected: too weak line 11", "P 3", "L 1 2", "L 1 0")

    def test_a_bad_node_is_told_before_a_weak_one_above_it(self):
        self.told("rejected: bad node line 11", "P 3", "L 0", "P 3", "L 2 0 1", "L 2 0 1")
        self.told("rejected: illegal place 0", "P 0", "L 1 2", "L 2 0 1", torches="0 3")

    def test_one_number_below_the_number_of_cells(self):
        for line in ("P 12", "P", "P ", "P 3 4", "P 03", "P +3", "P -3", " P 3", "P 3 ", "p 3"):
            self.told("rejected: syntax line 9", line, "L 1 2", "L 2 0 1")

    def test_earlier_versions_have_none(self):
        for version, at in ((1, 8), (2, 9), (3, 9)):
            self.told(f"rejected: syntax line {at}", "P 3", "L 1 2", "L 2 0 1", version=version)

    def test_other_versions(self):
        for version in (0, 5, 10, "04", ""):
            self.told("rejected: syntax line 1", "P 3", "L 1 2", "L 2 0 1", version=version)

    def test_the_fourth_version_has_a_line_for_the_need(self):
        text = certificate("P 3", "L 1 2", "L 2 0 1")
        box = Box((3, 2, 2), 2, 1)
        self.assertEqual(verdict(box, text.replace(b"need 1\n", b""), TRIANGLE), "rejected: syntax line 4\n")
        self.assertEqual(verdict(box, text.replace(b"need 1", b"need 2"), TRIANGLE), "rejected: syntax line 4\n")
        self.assertEqual(verdict(box, text.replace(b"need 1", b"need 8"), TRIANGLE), "rejected: wrong box\n")

    def test_the_fourth_version_has_all_other_nodes(self):
        self.told("accepted 2", "E 7 3", "W 1", "G 2 3 0 1 1 1 2 1")
        self.told("accepted 2", "P 3", "W 1", "G 1 1 2 1", "W 2", "G 1 1 0 1", "G 1 1 1 1")


class Random(unittest.TestCase):
    def test_each_forgery_of_picks_comes(self):
        leaves = ["L 1 2", "L 2 0 1"]
        made = certificate("P 3", *leaves)
        forged = {damage.certificate_forged(random.Random(seed), made) for seed in range(6000)}
        for tree in (
            ["P 0", *leaves], ["P 11", *leaves], ["P 12", *leaves], ["P 3 3", *leaves],
            ["P 3", *reversed(leaves)], ["P 3", *leaves[:1]], ["P 3", *leaves[1:]],
            ["P 3", "P 3", "L 1 2", *leaves], ["P 3", "L 1 2", "P 3", "L 2 0 1", "L 2 0 1"],
        ):
            self.assertIn(certificate(*tree), forged)
        for version in (1, 2, 3, 5):
            self.assertIn(made.replace(b"torchproof 4", f"torchproof {version}".encode()), forged)
        made = certificate("D 1 6", "L 1 0", version=3)
        forged = {damage.certificate_forged(random.Random(seed), made) for seed in range(6000)}
        for version in (3, 4):
            self.assertIn(certificate("D 1 6", "P 3", "L 1 0", "L 1 0", version=version), forged)

    def test_an_accepted_number_is_the_least(self):
        """Of certificates with picks, made and forged at random, by a search over subsets."""
        accepted, rejected = 0, set()
        for seed in range(150):
            rng = random.Random(seed)
            data, _ = random_caves.structure_file(rng, *random_caves.felt_cave(rng))
            read = structure_of(data)
            cave = Cave(read.size, classes_of(read, user_rows(FELT_TABLE)), 2, rng.choice([1, 8]))
            coverage = Coverage(cave)
            rows = [sum(1 << i for i, cell in enumerate(coverage.dark) if cell in lit) for lit in coverage.lit.values()]
            made = trees.certificate_of(rng, cave, coverage)
            for text in [made, *(damage.certificate_changed(rng, made) for _ in range(6))]:
                told = verdict(cave, text, coverage)
                if b"\nP " not in text:
                    continue
                if told.startswith("accepted"):
                    accepted += 1
                    fewest = cover_number([row for row in rows if row], len(coverage.dark))
                    self.assertEqual(told, f"accepted {fewest}\n", text)
                else:
                    rejected.add(" ".join(told.split()[1:-1]))
        self.assertGreater(accepted, 20)
        self.assertLessEqual({"syntax line", "bad node line", "too weak line"}, rejected)


if __name__ == "__main__":
    unittest.main()

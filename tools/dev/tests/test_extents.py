"""Boxes by their corners, and the program's limits (README.md, "Use": Limits)."""
import unittest

import paths
import extents
from extents import between, is_small, size_of


class Extents(unittest.TestCase):
    def test_corners_in_any_order(self):
        for one, other in [((1, -2, 3), (-4, 5, -6)), ((-4, 5, 3), (1, -2, -6)), ((-4, -2, -6), (1, 5, 3))]:
            self.assertEqual(between(one, other), ((-4, -2, -6), (1, 5, 3)))
        self.assertEqual(size_of(between((0, 0, 0), (0, 0, 0))), (1, 1, 1))

    def test_limits(self):
        for size, due in [((126, 14, 126), True), ((62, 62, 62), True), ((126, 15, 126), False), ((127, 1, 1), False),
                          ((62, 63, 62), False), ((1, 126, 1), True), ((1, 1, 127), False)]:
            self.assertEqual(is_small(extents.sized((5, -6, 7), size)), due)


if __name__ == "__main__":
    unittest.main()

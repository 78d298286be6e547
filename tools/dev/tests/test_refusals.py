"""Why there is no plan, in one line, with its place and its status."""
import unittest

import paths
from refusals import FAILED, REFUSED, Refusal, damaged, unreadable


class Places(unittest.TestCase):
    def test_what_is_damaged_gets_its_place_once(self):
        why = damaged("nbt: truncated at 7")
        self.assertEqual(str(why), "nbt: truncated at 7")
        self.assertEqual(str(why.at("chunk 1 2")), "chunk 1 2: nbt: truncated at 7")
        self.assertEqual(str(why.at("chunk 1 2").at("x.nbt")), "chunk 1 2: nbt: truncated at 7")

    def test_a_line_that_says_where_stays(self):
        for why in (Refusal("x.nbt: a zip archive", FAILED), unreadable("x.nbt", OSError(13, "denied"))):
            self.assertIs(why.at("y"), why)

    def test_the_status_stays(self):
        self.assertEqual(damaged("x").at("y").status, REFUSED)
        self.assertEqual(Refusal("x", FAILED, has_place=False).at("y").status, FAILED)

    def test_it_is_one_line(self):
        self.assertEqual(str(damaged("a\nb").at("c\x1b")), "c\\x1b: a\\nb")


if __name__ == "__main__":
    unittest.main()

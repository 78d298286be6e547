"""The map of an area: where its pieces and torches are drawn, and where they lead."""
import unittest
import xml.etree.ElementTree

import paths
import overviews
from extents import Extent

PIECES = [
    (Extent((-8, 3, 4), (11, 9, 23)), [[0, 4, 5, "floor"], [-8, 4, 23, "east"]], "pieces/1/index.html", "2 torches"),
    (Extent((40, -9, 4), (43, 0, 9)), [], "pieces/2/index.html", 'a "piece" & <more>'),
]


class Map(unittest.TestCase):
    def setUp(self):
        self.svg = xml.etree.ElementTree.fromstring(overviews.svg(Extent((-10, 0, 0), (89, 20, 49)), PIECES))

    def test_it_shows_the_area_from_above(self):
        self.assertEqual(self.svg.get("viewBox"), "0 0 100 50")

    def test_each_piece_leads_to_its_page(self):
        links = self.svg.findall("a")
        self.assertEqual([link.get("href") for link in links], [page for _, _, page, _ in PIECES])
        self.assertEqual([link.find("title").text for link in links], [told for _, _, _, told in PIECES])
        drawn = [[float(link.find("rect").get(name)) for name in ("x", "y", "width", "height")] for link in links]
        self.assertEqual(drawn, [[2, 4, 20, 20], [50, 4, 4, 6]])

    def test_its_number_stands_in_its_middle_and_fits(self):
        told = [(text.text, float(text.get("x")), float(text.get("y")), float(text.get("font-size")))
                for text in self.svg.iter("text")]
        self.assertEqual(told, [("1", 12, 14, 4), ("2", 52, 7, 2)])

    def test_torches_are_dots_in_the_middle_of_their_cells(self):
        self.assertEqual(self.svg.find("path").get("d"), "M10.5 5.5h0M2.5 23.5h0")
        self.assertEqual(self.svg.find("path").get("stroke-linecap"), "round")

    def test_far_from_the_middle_of_the_world(self):
        extent = Extent((29_999_000, 0, -30_000_000), (29_999_999, 9, -29_999_001))
        told = overviews.svg(extent, [(extent, [[29_999_999, 1, -29_999_999, "floor"]], "x", "y")])
        self.assertIn("M999.5 1.5h0", told)


if __name__ == "__main__":
    unittest.main()

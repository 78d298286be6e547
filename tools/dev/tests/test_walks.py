"""The order in which torches are placed."""
import random
import unittest

import paths
import walks


def drawn(seed, count, tall=1):
    rng = random.Random(seed)
    return rng.sample([(x, y, z) for x in range(60) for y in range(tall) for z in range(60)], count)


class Walks(unittest.TestCase):
    def test_each_place_once(self):
        for count in (0, 1, 2, 3, 41, 61, 200):
            for tall in (1, 4):
                places = drawn(count, count, tall)
                for walk in (walks.short_walk(places), walks.by_layers(places), walks.in_order(places)):
                    self.assertEqual(sorted(walk), sorted(places))

    def test_a_walk_is_much_shorter_than_the_order_of_cells(self):
        for seed in range(4):
            places = drawn(seed, 42)
            by_cells = walks.length(sorted(places, key=lambda at: (at[1], at[2], at[0])))
            self.assertLess(walks.length(walks.in_order(places)), by_cells / 2)

    def test_no_part_turned_round_makes_it_shorter(self):
        walk = walks.short_walk(drawn(5, 30))
        for first in range(30):
            for last in range(first + 1, 30):
                turned = walk[:first] + walk[first : last + 1][::-1] + walk[last + 1 :]
                self.assertGreaterEqual(walks.length(turned), walks.length(walk))

    def test_on_a_line_it_goes_from_end_to_end(self):
        places = [(x, 0, 0) for x in (7, 3, 5, 1, 9)]
        self.assertIn(walks.in_order(places), (sorted(places), sorted(places)[::-1]))

    def test_layer_by_layer_where_that_costs_little(self):
        floors = [(x, y, 0) for x in range(0, 50, 10) for y in (0, 8)]
        walk = walks.in_order(floors)
        self.assertEqual([y for _, y, _ in walk], [0] * 5 + [8] * 5)
        stairs = [(x, y, 0) for x in range(0, 200, 20) for y in (0, 1)]  # each layer is as long as the whole way
        walk = walks.in_order(stairs)
        self.assertLess(walks.length(walk), walks.length(walks.by_layers(stairs)))


if __name__ == "__main__":
    unittest.main()

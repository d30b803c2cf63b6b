"""Layouts of networks: nothing overlaps, all is inside, and columns go from left to right."""
from __future__ import annotations

import random
import unittest

from support import TestCase

from bench61499.language.layers import Gaps, layered

GAPS = Gaps(across=50, down=10, unbroken=150)


class LayoutTest(TestCase):
    def laid_out(self, sizes, edges, aspect=1.25):
        """The rectangles as left, top, right and bottom, once they are found to be apart and inside."""
        layout = layered(sizes, edges, aspect, GAPS)
        found = [(x, y, x + width, y + height) for (x, y), (width, height) in zip(layout.corners, sizes, strict=True)]
        for left, top, right, bottom in found:
            self.assertTrue(-1e-6 < left and -1e-6 < top and right < layout.width + 1e-6 and bottom < layout.height + 1e-6)
        for at, (left, top, right, bottom) in enumerate(found):
            for other_left, other_top, other_right, other_bottom in found[:at]:
                apart = left >= other_right or other_left >= right or top >= other_bottom - 1e-6 or other_top >= bottom - 1e-6
                self.assertTrue(apart)
        return found

    def test_nothing_and_one(self):
        self.assertEqual(self.laid_out([], []), [])
        self.assertEqual(self.laid_out([(30, 20)], [(0, 0)]), [(0, 0, 30, 20)])

    def test_a_row(self):
        self.assertEqual(self.laid_out([(30, 20)] * 3, [(2, 1), (1, 0), (1, 0)], aspect=5), [(160, 0, 190, 20), (80, 0, 110, 20), (0, 0, 30, 20)])

    def test_a_row_in_a_narrow_window(self):
        chain = [(0, 1), (1, 2), (2, 3)]
        self.assertEqual(self.laid_out([(30, 20)] * 4, chain, aspect=0.2), [(0, 0, 30, 20), (80, 0, 110, 20), (0, 40, 30, 60), (80, 40, 110, 60)])
        self.assertEqual(self.laid_out([(30, 20)] * 2, chain[:1], aspect=0.2), [(0, 0, 30, 20), (80, 0, 110, 20)])

    def test_sources_stand_left(self):
        sizes = [(30, 20)] * 7
        edges = [(0, 2), (1, 2), (2, 3), (2, 4), (3, 5), (4, 5), (0, 6)]
        found = self.laid_out(sizes, edges, aspect=3)
        for source, destination in edges:
            self.assertLess(found[source][2], found[destination][0])

    def test_a_cycle_begins_at_its_first(self):
        found = self.laid_out([(30, 20)] * 3, [(0, 1), (1, 2), (2, 0)], aspect=4)
        self.assertEqual([it[0] for it in found], [0, 80, 160])

    def test_edges_do_not_cross_where_they_need_not(self):
        found = self.laid_out([(30, 20)] * 7, [(6, 0), (6, 1), (6, 2), (0, 5), (1, 4), (2, 3)], aspect=3)
        self.assertEqual([found[at][:2] for at in (0, 1, 2)], [(80, 0), (80, 30), (80, 60)])
        self.assertEqual([found[at][:2] for at in (5, 4, 3)], [(160, 0), (160, 30), (160, 60)])

    def test_random_networks_in_windows_of_any_shape(self):
        rng = random.Random(61499)
        for count in (2, 5, 20, 60) * 5:
            sizes = [(rng.randrange(20, 200), rng.randrange(20, 100)) for _ in range(count)]
            edges = [(rng.randrange(count), rng.randrange(count)) for _ in range(rng.randrange(2 * count))]
            self.laid_out(sizes, edges, rng.choice([0.2, 0.5, 1, 2, 5]))

    def test_a_long_chain_and_many_alone_fill_the_window(self):
        for edges in ([], [(at, at + 1) for at in range(399)], [(0, at) for at in range(1, 400)]):
            found = self.laid_out([(100, 60)] * 400, edges, aspect=1.5)
            width, height = max(it[2] for it in found), max(it[3] for it in found)
            self.assertTrue(0.6 < width / height < 3.5, (width, height))


if __name__ == "__main__":
    unittest.main()

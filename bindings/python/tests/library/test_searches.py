"""Searches before a tick. What is wanted is worked out by hand."""

import unittest

from nashirudder.library import Fleet, Handle

# Two robots in two rows: each goes straight along its own, so that one search finds its way.
ROWS = "type octile\nheight 2\nwidth 5\nmap\n.....\n.....\n"
STARTS = [0, 5]


class SearchesTest(unittest.TestCase):
    def test_a_tick_after_searches_gives_the_same(self):
        with Handle(ROWS, STARTS) as plain, Handle(ROWS, STARTS) as ahead:
            self.assertEqual((ahead.missing(), ahead.search_one()), (0, 0))
            for fleet in (plain, ahead):
                fleet.go(0, 4)
                fleet.go(1, 9)
            self.assertEqual((ahead.missing(), ahead.search(0)), (2, 2))
            self.assertEqual((ahead.search_one(), ahead.missing(), plain.missing()), (1, 1, 2))
            self.assertEqual((ahead.search(3600), ahead.search_one()), (0, 0))
            for _ in range(4):
                self.assertEqual(plain.tick(), ahead.tick())
                self.assertEqual(ahead.missing(), 0)
            self.assertTrue(ahead.is_idle())
            self.assertEqual(list(ahead.placement()), [4, 9])
            self.assertEqual(plain.trace(), ahead.trace())

    def test_a_fleet_searches(self):
        with Fleet(robots=STARTS, text=ROWS) as fleet:
            first, second = fleet.go(0, 4), fleet.go(1, 9)
            self.assertEqual((first.accepted(), second.accepted()), (1, 2))
            self.assertEqual((fleet.missing(), fleet.search_one(), fleet.search(3600)), (2, 1, 0))
            fleet.tick(4)
            self.assertEqual((first.arrived().tick, second.arrived().tick), (4, 4))


if __name__ == "__main__":
    unittest.main()

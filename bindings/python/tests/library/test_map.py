"""Tests of a map that is read once. What is wanted is worked out by hand."""

import copy
import os
import unittest

from nashirudder import OutOfRange, Refused
from nashirudder.library import FAR, Map, is_proved

RING = "type octile\nheight 3\nwidth 4\nmap\n....\n.@..\n....\n"
APART = "type octile\nheight 1\nwidth 3\nmap\n.@.\n"


class LibraryTest(unittest.TestCase):
    @unittest.skipUnless("NASHIRUDDER_PROVED" in os.environ, "tools/build_c sets NASHIRUDDER_PROVED")
    def test_says_whether_it_is_proved(self):
        self.assertIs(is_proved(), os.environ["NASHIRUDDER_PROVED"] == "yes")


class MapTest(unittest.TestCase):
    def refused(self, name, call, numbers=()):
        with self.assertRaises(Refused) as caught:
            call()
        self.assertEqual((caught.exception.name, caught.exception.numbers), (name, numbers))

    def test_ring(self):
        with Map(RING) as ring:
            # Rows have 3, 1 and 3 edges, columns 2, 0, 2 and 2.
            self.assertEqual((ring.height, ring.width, ring.cells, ring.floor, ring.edges), (3, 4, 12, 11, 13))
            self.assertIsNone(ring.first_bridge())
            for _ in range(2):
                self.assertEqual(list(ring.distances(4)), [1, 2, 3, 4, 0, FAR, 4, 5, 1, 2, 3, 4])
            self.refused("goal-blocked", lambda: ring.distances(5))
            ring.check_step([0, 3], [1, 2])
            self.refused("swapping-conflict", lambda: ring.check_step([0, 1], [1, 0]), (0, 1))
            self.refused("to-length", lambda: ring.check_step([0], []), (0, 0))
            joins = lambda n: ring.joins(n, 0), lambda n: ring.joins(0, n)
            for number in (-1, 2**32, 1.0, None):
                for call in (ring.distances, *joins, lambda n: ring.check_step([n], [0])):
                    with self.subTest(number=number), self.assertRaises(OutOfRange):
                        call(number)
        for call in (ring.first_bridge, lambda: ring.joins(0, 1), lambda: ring.distances(4)):
            self.refused("not-open", call)

    def test_parts(self):
        apart = Map(APART)
        self.assertEqual((apart.floor, apart.edges), (2, 0))
        joined = [(one, other) for one in range(4) for other in range(4) if apart.joins(one, other)]
        self.assertEqual(joined, [(0, 0), (2, 2)])
        self.assertEqual(list(apart.distances(0)), [0, FAR, FAR])
        self.assertEqual(Map("type octile\nheight 1\nwidth 3\nmap\n...\n").first_bridge(), (0, 1))

    def test_what_is_no_map(self):
        self.refused("map-header", lambda: Map(""), (1, 0))
        self.refused("map-cell", lambda: Map(APART.replace("@", "x")), (0, 1))
        for make in (copy.copy, copy.deepcopy):
            with self.assertRaises(TypeError):
                make(Map(RING))


if __name__ == "__main__":
    unittest.main()

"""Tests of shields. What is wanted is worked out by hand, or by tools/shield/model.py where it says so."""

import array
import copy
import unittest

from nashirudder import OutOfRange, Refused
from nashirudder.library import Map, Shield

try:
    import numpy
except ImportError:
    numpy = None

# 0 1 2 3 4
# 5 6 # 8 9
TEXT = "type octile\nheight 2\nwidth 5\nmap\n.....\n..@..\n"


def stepped(cells, order, preferences):
    with Shield(TEXT, len(cells)) as shield:
        return list(shield.step(cells, order, preferences))


class ShieldTest(unittest.TestCase):
    def refused(self, name, numbers, call):
        with self.assertRaises(Refused) as caught:
            call()
        self.assertEqual((caught.exception.name, caught.exception.numbers), (name, numbers))
        return str(caught.exception)

    def test_steps(self):
        # Both want the cell between them: the first in order gets it.
        self.assertEqual((stepped([0, 2], [1, 0], [[1], [1]]), stepped([0, 2], [0, 1], [[1], [1]])), ([0, 1], [1, 2]))
        # One is pushed on; two do not exchange their cells, and the one that is pushed makes way.
        self.assertEqual((stepped([0, 1], [0, 1], [[1], [2]]), stepped([0, 1], [0, 1], [[1], [0]])), ([1, 2], [0, 1]))
        self.assertEqual(stepped([0, 1], [0, 1], [[1, 0], [0, 6]]), [1, 6])
        # Rows of different lengths.
        self.assertEqual(stepped([0, 1], [0, 1], [[1], [0, 6]]), [1, 6])
        self.assertEqual(stepped([3, 9], [0, 1], [[], []]), [3, 9])
        self.assertEqual(stepped([], [], []), [])
        # Four turn on a block of four cells.
        self.assertEqual(stepped([0, 1, 6, 5], [2, 0, 3, 1], [[1], [6], [5], [0]]), [1, 6, 5, 0])
        # By tools/shield/model.py.
        self.assertEqual(stepped([6, 0, 8], [2, 0, 1], [[6, 1], [0, 5], [3, 3]]), [6, 0, 3])

    def test_refusals(self):
        shield = Shield(TEXT, 2)
        to = array.array("I", [77, 78])
        for name, numbers, cells, order, preferences in (
            ("shield-length", (0, 0), [0, 2, 4], [0, 1], [[1], [1]]),
            ("shield-length", (0, 0), [0, 2], [0], [[1], [1]]),
            ("shield-length", (0, 0), [0, 2], [0, 1], [[1]]),
            ("shield-outside", (1, 0), [0, 10], [0, 1], [[1], [9]]),
            ("shield-wall", (0, 0), [7, 0], [2, 2], [[1], [1]]),
            ("shield-shared", (0, 1), [1, 1], [2, 1], [[1], [1]]),
            ("shield-unknown", (1, 0), [0, 2], [0, 2], [[9], [1]]),
            ("shield-twice", (1, 0), [0, 2], [1, 1], [[9], [1]]),
            ("shield-far", (1, 1), [0, 3], [0, 1], [[0, 1], [3, 9]]),
            ("shield-far", (0, 0), [2, 3], [0, 1], [[7], [3]]),
        ):
            with self.subTest(name=name):
                self.refused(name, numbers, lambda: shield.step(cells, order, preferences, out=to))
                self.assertEqual(list(to), [77, 78])
        said = self.refused("shield-far", (1, 1), lambda: shield.step([0, 3], [0, 1], [[0, 1], [3, 9]]))
        self.assertIn("preference 1 of robot 1 is neither its cell nor next to it", said)
        self.refused("map-size", (0, 0), lambda: Shield("type octile\nheight 0\nwidth 1\nmap\n", 1))

    def test_ranges(self):
        shield = Shield(TEXT, 1)
        for wrong in (
            lambda: Shield(TEXT, -1), lambda: Shield(TEXT, 2**32), lambda: shield.step([0.5], [0], [[0]]),
            lambda: shield.step([0], [-1], [[0]]), lambda: shield.step([0], [0], [[2**32]]),
            lambda: shield.step([0], [0], [[0]], out=array.array("I", [0, 0])), lambda: shield.step([0], [0], [[0]], out=[0]),
            lambda: shield.step([0], [0], [[0]], out=array.array("Q", [0])), lambda: shield.step([0], [0], array.array("I", [0])),
            lambda: shield.step([0], [0], [[0] * 2**16]),
        ):
            with self.assertRaises(OutOfRange):
                wrong()

    def test_closed(self):
        map = Map(TEXT)
        shield, other = Shield(map, 1), Shield(map, 1)
        self.assertIs(shield.map, map)
        shield.close()
        self.refused("not-open", (), lambda: shield.step([0], [0], [[1]]))
        shield.close()
        self.assertEqual(list(other.step([0], [0], [[1]])), [1])
        map.close()
        self.refused("not-open", (), lambda: other.step([0], [0], [[1]]))
        self.refused("not-open", (), lambda: Shield(map, 1))
        with self.assertRaises(TypeError):
            copy.copy(other)

    def test_arrays_of_the_standard_library(self):
        shield = Shield(TEXT, 2)
        cells, order = array.array("I", [0, 2]), array.array("Q", [1, 0])
        wanted = memoryview(array.array("I", [1, 1])).cast("B").cast("I", (2, 1))
        self.assertIs(shield.step(cells, order, wanted, out=cells), cells)
        self.assertEqual(list(cells), [0, 1])

    @unittest.skipIf(numpy is None, "NumPy is not there")
    def test_arrays(self):
        shield = Shield(Map(TEXT), 2)
        kind = numpy.uint32
        cells, order, wanted = numpy.array([0, 1], kind), numpy.array([0, 1], kind), numpy.array([[1, 0], [0, 6]], kind)
        out = numpy.zeros(2, kind)
        self.assertIs(shield.step(cells, order, wanted, out=out), out)
        self.assertEqual((out.tolist(), cells.tolist()), ([1, 6], [0, 1]))
        # Of another kind, in another order in memory, and read-only.
        frozen = numpy.array([0, 1], kind)
        frozen.flags.writeable = False
        for given in ((cells.astype(int), order.astype(numpy.uint8), wanted.astype(numpy.int64)), (frozen, order[::-1][::-1], numpy.asfortranarray(wanted))):
            told = shield.step(*given)
            self.assertEqual((told.dtype, told.tolist()), (kind, [1, 6]))
        # Where the robots go may be written where they stand.
        self.assertIs(shield.step(cells, order, wanted, out=cells), cells)
        self.assertEqual(cells.tolist(), [1, 6])
        self.assertEqual(shield.step(numpy.array([3, 9]), order, numpy.zeros((2, 0), kind)).tolist(), [3, 9])
        for wrong in (
            lambda: shield.step(out, order, wanted[0]), lambda: shield.step(out, order, numpy.array([[-1], [1]])),
            lambda: shield.step(out, order, numpy.array([[0.5], [1]])), lambda: shield.step(wanted, order, wanted),
        ):
            with self.assertRaises(OutOfRange):
                wrong()


if __name__ == "__main__":
    unittest.main()

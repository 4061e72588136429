"""Arrays of the caller's, which the library reads and writes without a copy. NumPy's are tried where NumPy is there."""

import array
import unittest

from nashirudder import NoMemory, OutOfRange
from nashirudder.library import JUDGEMENT, NOWHERE, ORDER, STANDING, Code, Handle, Map, Refused, Verdict

try:
    import numpy
except ImportError:
    numpy = None

RING = "type octile\nheight 3\nwidth 4\nmap\n....\n.@..\n....\n"


class ArraysTest(unittest.TestCase):
    def test_cells_are_written_where_the_caller_says(self):
        with Handle(RING, [0, 3]) as fleet:
            fleet.go(0, 11)
            cells = array.array("I", [9, 9])
            self.assertIs(fleet.placement(out=cells), cells)
            self.assertEqual(list(cells), [0, 3])
            did = fleet.tick_record(out=cells)
            self.assertIs(did.cells, cells)
            self.assertEqual((list(cells), fleet.clock()), ([1, 3], 1))

    def test_what_is_no_such_array_is_refused_and_nothing_is_done(self):
        wrong = [array.array("I", [0]), array.array("I", [0] * 3), array.array("f", [0, 0]), bytes(8), [0, 0], None.__class__]
        if numpy is not None:
            wrong += [numpy.zeros(4, numpy.uint32)[::2], numpy.zeros(2, numpy.int32), numpy.zeros(2, numpy.uint64)]
        with Handle(RING, [0, 3]) as fleet:
            for out in wrong:
                with self.subTest(repr(out)):
                    self.assertRaises(OutOfRange, fleet.placement, out=out)
                    self.assertRaises(OutOfRange, fleet.tick_record, out=out)
                    self.assertRaises(OutOfRange, fleet.standings_into, out)
            self.assertEqual(fleet.clock(), 0)

    def test_lists_of_goals(self):
        with Handle(RING, [0, 3]) as fleet:
            taken = fleet.go_many([0, 1, 1], array.array("I", [1, 5, 2]))
            self.assertEqual([one.verdict for one in taken.judgements], ["accepted", "blocked", "accepted"])
            self.assertEqual(([one.number for one in taken.judgements], taken.refused), ([1, None, 2], None))
            self.assertRaises(OutOfRange, fleet.go_many, [0, 1], [1])
            self.assertEqual(fleet.go_many([], []).judgements, [])
            taken = fleet.go_many([0, 1], [1, 2], client=1)
            self.assertEqual((taken.judgements, taken.refused.name), ([], "no-client"))

    @unittest.skipIf(numpy is None, "NumPy is not there")
    def test_structs(self):
        with Handle(RING, [0, 3]) as fleet:
            orders, judged = numpy.zeros(3, numpy.dtype(ORDER)), numpy.zeros(3, numpy.dtype(JUDGEMENT))
            orders["kind"], orders["robot"], orders["cell"] = 1, [0, 1, 7], [11, 2, 0]
            self.assertEqual(fleet.take_into(orders, judged), (3, None))
            self.assertEqual(list(judged["verdict"]), [Verdict.ACCEPTED, Verdict.ACCEPTED, Verdict.NO_ROBOT])
            self.assertEqual(list(judged["number"]), [1, 2, 0])
            standings = numpy.zeros(2, numpy.dtype(STANDING))
            fleet.tick()
            self.assertIs(fleet.standings_into(standings), standings)
            self.assertEqual(standings["cell"].tolist(), [1, 2])
            self.assertEqual((standings["goal"].tolist(), standings["state"].tolist()), ([11, NOWHERE], [2, 1]))
            self.assertEqual(standings["wait"].tolist(), [1, 0])
            orders["client"][1] = 4
            judged["verdict"] = 0
            count, refused = fleet.take_into(orders, judged)
            self.assertEqual((count, refused.name, judged["verdict"].tolist()), (1, "no-client", [Verdict.ACCEPTED, 0, 0]))
            self.assertRaises(OutOfRange, fleet.take_into, orders, judged[:2])
        self.assertRaises(Refused, fleet.take_into, orders, judged)

    def test_want_of_memory_leaves_what_was_judged(self):
        with Handle(RING, [0, 3]) as fleet:
            call, left = fleet._call, 2

            def short(name, *arguments):
                if name != "take_many":
                    return call(name, *arguments)
                # The library takes two, and then finds no memory: it tells how many were taken.
                orders, _, told, _, count = arguments
                self.assertEqual(call(name, orders, left, told, left, count), Code.DONE)
                return Code.NO_MEMORY

            fleet._call = short
            taken = fleet.go_many([0, 1, 0], [1, 2, 3])
            self.assertEqual(([one.number for one in taken.judgements], type(taken.refused)), ([1, 2], NoMemory))
            del fleet._call
            self.assertEqual(fleet.go(0, 3).number, 3)

    def test_floor_cells(self):
        with Map(RING) as ring:
            self.assertEqual(list(ring.floor_cells()), [0, 1, 2, 3, 4, 6, 7, 8, 9, 10, 11])
            self.assertEqual(len(ring.floor_cells()), ring.floor)
            if numpy is not None:
                # The memory is the array's own, and can be written.
                cells = ring.floor_cells()
                self.assertEqual((cells.dtype, cells.flags.owndata, cells.flags.writeable), (numpy.uint32, True, True))
                self.assertTrue(ring.distances(4).flags.owndata)
        self.assertRaises(Refused, ring.floor_cells)
        with Map(RING.replace(".", "@")) as none:
            self.assertEqual(len(none.floor_cells()), 0)


if __name__ == "__main__":
    unittest.main()

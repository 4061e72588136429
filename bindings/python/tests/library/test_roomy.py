"""Fleets in this process that refuse errands to cells that are not roomy. What is wanted is worked out by hand."""

import os
import tempfile
import unittest

from nashirudder import FileFailed, Refused
from nashirudder.library import Fleet, Handle, Map

# A hall of nine cells, and a dead end of three: 9, 10 and 11. The dead end's sides have three, two and one cells.
STUB = "type octile\nheight 3\nwidth 6\nmap\n...@@@\n......\n...@@@\n"
FLOOR = [0, 1, 2, 6, 7, 8, 9, 10, 11, 12, 13, 14]
BY_ROBOTS = ((1, []), (2, [11]), (3, [10, 11]), (4, [9, 10, 11]))


class RoomyTest(unittest.TestCase):
    def setUp(self):
        self.folder = tempfile.TemporaryDirectory()
        self.addCleanup(self.folder.cleanup)
        self.map = os.path.join(self.folder.name, "stub.map")
        with open(self.map, "w") as file:
            file.write(STUB)

    def refused(self, call, name="no-room"):
        with self.assertRaises(Refused) as caught:
            call()
        self.assertEqual(caught.exception.name, name)

    def test_which_cells(self):
        with Map(STUB) as stub:
            for robots, unroomy in (*BY_ROBOTS, (0, []), (9, [9, 10, 11]), (10, FLOOR)):
                self.assertEqual(list(stub.unroomy(robots)), unroomy)
            self.assertEqual(stub.served_for(), 9)

    def test_by_how_many_robots_there_are(self):
        for robots, unroomy in BY_ROBOTS:
            with Fleet(self.map, FLOOR[:robots], roomy=True) as fleet, Handle(STUB, FLOOR[:robots], roomy=True) as handle:
                for cell in FLOOR:
                    if cell in unroomy:
                        self.refused(lambda: fleet.go(0, cell))
                        self.refused(lambda: handle.go(0, cell))
                    else:
                        fleet.go(0, cell)
                        self.assertEqual(handle.go(0, cell).verdict, "accepted")

    def test_what_is_left_to_the_world(self):
        with Fleet(self.map, [0, 2], roomy=True) as fleet:
            self.refused(lambda: fleet.go(0, 3).accepted(), "blocked")
            self.refused(lambda: fleet.go(5, 11))
            self.refused(lambda: fleet.go(0, 11, client=1), "no-client")

    def test_refused_errands_take_no_number(self):
        with Fleet(self.map, [0, 2], roomy=True) as fleet:
            self.refused(lambda: fleet.go(0, 11))
            errand = fleet.go(0, 10)
            self.assertEqual(errand.accepted(), 1)
            fleet.tick(5)
            self.assertEqual(errand.arrived().cell, 10)

    def test_without_the_word_each_is_taken(self):
        with Fleet(self.map, [0, 2]) as fleet, Handle(STUB, [0, 2]) as handle:
            self.assertEqual(fleet.go(0, 11).accepted(), 1)
            self.assertEqual(handle.go(0, 11).number, 1)

    def test_no_fleet_goes_on_with_such_an_errand(self):
        traces = os.path.join(self.folder.name, "traces")
        os.mkdir(traces)
        with Fleet(self.map, [0, 2], traces=traces) as fleet:
            fleet.go(0, 8), fleet.go(1, 11)
        with self.assertRaises(FileFailed) as caught:
            Fleet(self.map, [0, 2], traces=traces, resume=True, roomy=True)
        self.assertIn("an errand of client 0 for robot 1 goes to cell 11, which is not roomy", str(caught.exception))
        with Fleet(self.map, [0, 2], traces=traces, resume=True) as fleet:
            fleet.tick(8)
        with Fleet(self.map, [0, 2], traces=traces, resume=True, roomy=True) as fleet:
            self.assertTrue(fleet.look().idle)
            self.refused(lambda: fleet.go(0, 11))
        with Handle(STUB, [0, 2]) as handle:
            handle.go(1, 11)
            kept = handle.trace()
        self.refused(lambda: Handle.reopen(STUB, kept, roomy=True))


if __name__ == "__main__":
    unittest.main()

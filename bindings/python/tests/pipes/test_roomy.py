"""Tests of fleets that refuse errands to cells that are not roomy, against a built program: FLEET names it."""

import os
import subprocess
import tempfile
import unittest

from nashirudder import FileFailed, Fleet, LiveFleet, Refused, finding

PROGRAM = finding.program(os.environ.get("FLEET"))

# A hall of nine cells, and a dead end of three: 9, 10 and 11. The dead end's sides have three, two and one cells.
STUB = "type octile\nheight 3\nwidth 6\nmap\n...@@@\n......\n...@@@\n"


class RoomyTest(unittest.TestCase):
    def setUp(self):
        self.folder = tempfile.TemporaryDirectory()
        self.addCleanup(self.folder.cleanup)
        self.map = os.path.join(self.folder.name, "stub.map")
        with open(self.map, "w") as file:
            file.write(STUB)

    def refused(self, fleet, robot, cell):
        with self.assertRaises(Refused) as caught:
            fleet.go(robot, cell)
        self.assertEqual(caught.exception.name, "no-room")

    def test_by_how_many_robots_there_are(self):
        floor = [0, 1, 2, 6, 7, 8, 9, 10, 11, 12, 13, 14]
        for robots, unroomy in ((1, []), (2, [11]), (3, [10, 11]), (4, [9, 10, 11])):
            for make in (Fleet, LiveFleet):
                with make(self.map, floor[:robots], built=PROGRAM, roomy=True) as fleet:
                    for cell in floor:
                        if cell in unroomy:
                            self.refused(fleet, 0, cell)
                        else:
                            fleet.go(0, cell)

    def test_what_is_left_to_the_world(self):
        for make in (Fleet, LiveFleet):
            with make(self.map, [0, 2], built=PROGRAM, roomy=True) as fleet:
                with self.assertRaises(Refused) as caught:
                    fleet.go(0, 3).accepted()
                self.assertEqual(caught.exception.name, "blocked")
                self.refused(fleet, 5, 11)
                with self.assertRaises(Refused) as caught:
                    fleet.go(0, 11, client=1)
                self.assertEqual(caught.exception.name, "no-client")

    def test_refused_errands_take_no_number(self):
        for make in (Fleet, LiveFleet):
            with make(self.map, [0, 2], built=PROGRAM, roomy=True) as fleet:
                self.refused(fleet, 0, 11)
                errand = fleet.go(0, 10)
                self.assertEqual(errand.accepted(), 1)
                fleet.tick(5)
                self.assertEqual(errand.arrived().cell, 10)

    def test_without_the_word_each_is_taken(self):
        for make in (Fleet, LiveFleet):
            with make(self.map, [0, 2], built=PROGRAM) as fleet:
                self.assertEqual(fleet.go(0, 11).accepted(), 1)

    def test_no_fleet_goes_on_with_such_an_errand(self):
        traces = os.path.join(self.folder.name, "traces")
        os.mkdir(traces)
        with Fleet(self.map, [0, 2], traces=traces, built=PROGRAM) as fleet:
            fleet.go(0, 8), fleet.go(1, 11)
        for make in (Fleet, LiveFleet):
            with self.assertRaises(FileFailed) as caught:
                make(self.map, [0, 2], traces=traces, resume=True, roomy=True, built=PROGRAM)
            self.assertIn("an errand of client 0 for robot 1 goes to cell 11, which is not roomy", str(caught.exception))
        with Fleet(self.map, [0, 2], traces=traces, resume=True, built=PROGRAM) as fleet:
            fleet.tick(8)
        with LiveFleet(self.map, [0, 2], traces=traces, resume=True, roomy=True, built=PROGRAM) as fleet:
            self.assertTrue(fleet.look().idle)

    def test_the_warning(self):
        warning = "fleet: 1 of 12 cells are not roomy for 2 robots: errands there may block the fleet for ever (see --planner turns)\n"
        for word, words in (("talk", []), ("live", ["--robots", "0,2"])):
            for roomy, said in (([], warning), (["--roomy"], "")):
                lines = "look\n" if words else "robots 0 2\nlook\n"
                done = subprocess.run([PROGRAM, word, *words, *roomy, self.map], input=lines, capture_output=True, text=True)
                self.assertEqual((done.returncode, done.stderr), (0, said))


if __name__ == "__main__":
    unittest.main()

"""Fleets in this process whose robots take turns in dead ends. What is wanted is worked out by hand."""

import unittest

from nashirudder import Refused
from nashirudder.library import Fleet, Handle

# A hall of nine cells, and a dead end of three: 9, 10 and 11.
STUB = "type octile\nheight 3\nwidth 6\nmap\n...@@@\n......\n...@@@\n"
# One before the dead end, which is to go to its last cell, and one on that cell, which is to go out.
STARTS = [8, 11]


class TurnsTest(unittest.TestCase):
    def refused(self, call, name):
        with self.assertRaises(Refused) as caught:
            call()
        self.assertEqual(caught.exception.name, name)

    def test_errands_into_a_dead_end_arrive(self):
        for take, arrived in ((False, [0] * 7), (True, [0, 0, 0, 0, 0, 1, 1])):
            with Handle(STUB, STARTS) as fleet:
                if take:
                    fleet.take_turns()
                fleet.go(0, 11)
                fleet.go(1, 0)
                self.refused(fleet.take_turns, "chapter-begun")
                self.assertEqual([fleet.tick().arrived for _ in range(7)], arrived)
                kept = fleet.trace()
            # A fleet that goes on is asked again.
            with Handle.reopen(STUB, kept) as fleet:
                fleet.take_turns()
                for _ in range(9):
                    fleet.tick()
                self.assertEqual(fleet.placement()[0], 11)

    def test_a_fleet_that_is_told_its_planner(self):
        with Fleet(robots=STARTS, text=STUB, planner="turns") as fleet:
            first, second = fleet.go(0, 11), fleet.go(1, 0)
            fleet.tick(7)
            self.assertEqual((second.arrived().tick, first.arrived().tick), (6, 7))
        with Fleet(robots=STARTS, text=STUB) as fleet:
            fleet.go(0, 11)
            fleet.go(1, 0)
            fleet.tick(7)
            self.assertEqual(list(fleet.look().cells), [10, 11])


if __name__ == "__main__":
    unittest.main()

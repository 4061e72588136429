"""Tests of fleets whose robots take turns in dead ends, against a built program: FLEET names it. Where the robots stand is by tools/talk/model.py."""

import os
import subprocess
import tempfile
import unittest

from nashirudder import Fleet, OutOfRange, finding

PROGRAM = finding.program(os.environ.get("FLEET"))

# A square of four cells, and an aisle of two that ends blind: 6 and 7. Cell 7 is roomy for one robot, and served for two.
AISLE = "type octile\nheight 2\nwidth 4\nmap\n..@@\n....\n"
# A hall of nine cells, and an aisle of three: 9, 10 and 11
HALL = "type octile\nheight 3\nwidth 6\nmap\n...@@@\n......\n...@@@\n"
RING = "type octile\nheight 3\nwidth 3\nmap\n...\n.@.\n...\n"

# Robot 0 is sent to the end of the aisle, where robot 1 stands
ERRAND = "robots 0 7\npost 0 go 0 7\ntake 0\n"
TAKEN = "posted 0 1\ntook 0 1 accepted 1\n"
FROZEN = ["1 7", "5 7", "6 7", "6 7", "6 7", "6 7", "6 7", "6 7"]
IN_TURNS = ["1 6", "1 5", "5 4", "6 4", "7 4", "7 4", "7 4", "7 4"]


def ticks(places, first=1, arrived=()):
    """The lines of ticks that lead to these places, with the line of an arrival after the tick that it came in."""
    lines = []
    for tick, place in enumerate(places, first):
        lines += [f"tick {tick}: {place}"] + [line for at, line in arrived if at == tick]
    return "".join(line + "\n" for line in lines)


def arrival(robot, number, cell):
    return f"arrived robot {robot} client 0 number {number} cell {cell} stamp 0"


class PlannerTest(unittest.TestCase):
    def setUp(self):
        folder = tempfile.TemporaryDirectory()
        self.addCleanup(folder.cleanup)
        self.folder = folder.name

    def map(self, text):
        name = os.path.join(self.folder, "some.map")
        with open(name, "w") as file:
            file.write(text)
        return name

    def said(self, words, text, lines, status=0):
        """What the program says and complains of, with this status."""
        done = subprocess.run([PROGRAM, "talk", *words, self.map(text)], input=lines, capture_output=True, text=True)
        self.assertEqual(done.returncode, status)
        return done.stdout, done.stderr

    def test_an_aisle_that_ends_blind(self):
        warning = "fleet: 1 of 6 cells are not roomy for 2 robots: errands there may block the fleet for ever (see --planner turns)\n"
        frozen = TAKEN + ticks(FROZEN)
        for words in ([], ["--planner", "plain"]):
            self.assertEqual(self.said(words, AISLE, ERRAND + "tick 8\n"), (frozen, warning))
        moved = TAKEN + ticks(IN_TURNS, arrived=[(5, arrival(0, 1, 7))])
        self.assertEqual(self.said(["--planner", "turns"], AISLE, ERRAND + "tick 8\n"), (moved, ""))

    def test_three_robots_come_out_one_after_another(self):
        lines = "robots 0 9 10 11\npost 0 go 0 11\npost 0 go 0 0\npost 0 go 3 9\ntake 0\ntake 0\ntake 0\ntick 14\n"
        taken = "posted 0 1\nposted 0 2\nposted 0 3\ntook 0 1 accepted 1\ntook 0 2 accepted 2\ntook 0 3 accepted 3\n"
        frozen = ["1 8 9 10", "2 14 8 9", "8 14 9 10"] + ["9 14 10 11"] * 11
        out, _ = self.said([], HALL, lines)
        self.assertEqual(out, taken + ticks(frozen, arrived=[(2, arrival(3, 3, 9))]))
        turned = [
            "1 8 9 10", "7 2 8 9", "7 1 2 8", "8 7 1 2", "9 7 1 2", "10 7 1 2", "11 7 1 2",
            "10 7 1 2", "9 7 1 2", "8 7 1 2", "2 8 7 1", "1 2 8 7", "0 2 8 7", "0 2 8 7",
        ]
        out, _ = self.said(["--planner", "turns"], HALL, lines)
        self.assertEqual(out, taken + ticks(turned, arrived=[(2, arrival(3, 3, 9)), (7, arrival(0, 1, 11)), (13, arrival(0, 2, 0))]))

    def test_turns_go_on_in_the_next_chapter(self):
        out, _ = self.said(["--planner", "turns"], AISLE, ERRAND + "tick 2\nchapter\ntick 3\n")
        self.assertEqual(out, TAKEN + ticks(IN_TURNS[:2]) + "chapter 0 entries 3\n" + ticks(IN_TURNS[2:5], 3, [(5, arrival(0, 1, 7))]))

    def test_a_fleet_that_goes_on_takes_turns_where_it_is_asked_to(self):
        # No chapter says how it was planned.
        thawed = ["5 6", "1 5", "5 4", "6 4", "7 4"]
        for first, before, then, after, arrived in (
            ("turns", IN_TURNS[:2], "turns", IN_TURNS[2:], 5),
            ("plain", FROZEN[:4], "turns", thawed, 9),
            ("turns", IN_TURNS[:2], "plain", ["5 6", "6 7", "6 7", "6 7"], None),
        ):
            traces = os.path.join(self.folder, first + then)
            os.mkdir(traces)
            out, _ = self.said(["--planner", first, "--traces", traces], AISLE, ERRAND + f"tick {len(before)}\n")
            self.assertEqual(out, TAKEN + ticks(before))
            out, _ = self.said(["--planner", then, "--traces", traces, "--resume"], AISLE, f"tick {len(after)}\n")
            self.assertEqual(out, ticks(after, len(before) + 1, [(arrived, arrival(0, 1, 7))]))

    def test_maps_without_bridges_are_planned_plainly(self):
        lines = "robots 0 8\npost 0 go 0 8\npost 0 go 1 0\ntake 0\ntake 0\ntick 9\nlook\n"
        self.assertEqual(self.said(["--planner", "turns"], RING, lines), self.said([], RING, lines))

    def test_a_look_foresees_nothing_of_robots_that_take_turns(self):
        roomy = "robots 0 7\npost 0 go 0 5\ntake 0\nlook\n"
        for planner, within, then in (("plain", " within 10", " blocked 7 at 6 7"), ("turns", "", " at 5 4")):
            out, _ = self.said(["--planner", planner], AISLE, roomy)
            self.assertEqual(out.splitlines()[-1], f"look tick 0 chapter 0 entries 1 busy eldest 0{within} at 0 7")
            out, _ = self.said(["--planner", planner], AISLE, ERRAND + "tick 3\nlook\n")
            self.assertEqual(out.splitlines()[-1], f"look tick 3 chapter 0 entries 4 busy eldest 0{then}")

    def test_with_roomy_posts_are_refused_all_the_same(self):
        out, error = self.said(["--planner", "turns", "--roomy"], AISLE, "robots 0 7\npost 0 go 0 7\n")
        self.assertEqual((out, error), ("post-refused 0 3 no-room\n", ""))

    def test_other_words(self):
        for word in ("Turns", "turns ", "pibt"):
            self.assertEqual(self.said(["--planner", word], AISLE, "", 2), ("", "error: invalid value for '--planner <NAME>'\n"))

    def test_the_class(self):
        for planner, cells in (("plain", [6, 7]), ("turns", [7, 4])):
            with Fleet(self.map(AISLE), [0, 7], planner=planner, built=PROGRAM) as fleet:
                errand = fleet.go(0, 7)
                fleet.tick(8)
                self.assertEqual((fleet.look().cells, errand.arrived() is not None), (cells, planner == "turns"))
        with self.assertRaises(OutOfRange):
            Fleet(self.map(AISLE), [0], planner="pibt", built=PROGRAM)

    def test_a_fleet_in_real_time(self):
        traces = os.path.join(self.folder, "traces")
        os.mkdir(traces)
        for words, arrives in (([], False), (["--planner", "plain"], False), (["--planner", "turns"], True)):
            done = subprocess.run(
                [PROGRAM, "live", "--robots", "0,7", *words, self.map(AISLE)], input="post 0 go 0 7\ntick 8\nquit\n", capture_output=True, text=True)
            self.assertEqual(done.returncode, 0)
            self.assertEqual("collected 0 2 arrived 1 robot 0 cell 7 tick 5 stamp 0\n" in done.stdout, arrives)
            self.assertEqual("not roomy" in done.stderr, not arrives)
        # Turns go on where they are asked for again.
        for lines, told in (("post 0 go 0 7\ntick 2\nquit\n", "collected 0 1"), ("tick 3\nquit\n", "collected 0 2 arrived 1 robot 0 cell 7 tick 5 stamp 0\n")):
            words = ["--planner", "turns", "--traces", traces, "--resume"]
            done = subprocess.run([PROGRAM, "live", "--robots", "0,7", *words, self.map(AISLE)], input=lines, capture_output=True, text=True)
            self.assertEqual(done.returncode, 0, done.stderr)
            self.assertIn(told, done.stdout)
        done = subprocess.run([PROGRAM, "live", "--robots", "0,7", "--planner", "turn", self.map(AISLE)], input="", capture_output=True, text=True)
        self.assertEqual((done.returncode, done.stderr), (2, "error: invalid value for '--planner <NAME>'\n"))


if __name__ == "__main__":
    unittest.main()

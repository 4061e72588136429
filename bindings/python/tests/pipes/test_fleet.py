"""Tests of Fleet over pipes against a built program: FLEET names it."""

import json
import os
import subprocess
import tempfile
import unittest

from nashirudder import Ended, Fleet, OrderRefused, Refused, Waiting, finding
from nashirudder.names import Verdict

PROGRAM = finding.program(os.environ.get("FLEET"))

RING = "type octile\nheight 3\nwidth 3\nmap\n...\n.@.\n...\n"
OPEN = "type octile\nheight 5\nwidth 5\nmap\n" + ".....\n" * 5
CORRIDOR = "type octile\nheight 1\nwidth 3\nmap\n...\n"


class FleetTest(unittest.TestCase):
    def setUp(self):
        self.folder = tempfile.TemporaryDirectory()
        self.addCleanup(self.folder.cleanup)

    def map(self, text):
        path = os.path.join(self.folder.name, "site.map")
        with open(path, "w") as file:
            file.write(text)
        return path

    def fleet(self, text, robots, **words):
        fleet = Fleet(self.map(text), robots=robots, built=PROGRAM, **words)
        self.addCleanup(fleet.close)
        return fleet

    def test_three_robots_arrive(self):
        with self.fleet(OPEN, [0, 4, 24]) as fleet:
            errands = [fleet.go(robot, cell) for robot, cell in ((0, 20), (1, 22), (2, 2))]
            self.assertEqual([errand.accepted() for errand in errands], [1, 2, 3])
            within = fleet.look().within
            for _ in range(within):
                fleet.tick()
            arrivals = [errand.arrived() for errand in errands]
            self.assertEqual([arrival.cell for arrival in arrivals], [20, 22, 2])
            self.assertEqual([arrival.robot for arrival in arrivals], [0, 1, 2])
            self.assertTrue(fleet.look().idle)
        self.assertEqual(fleet.status, 0)

    def test_worked_example(self):
        # docs/SCRIPT.md, "A worked example"
        with self.fleet(RING, [0, 8]) as fleet:
            first, second = fleet.go(0, 1), fleet.go(1, 0)
            self.assertEqual([fleet.tick() for _ in range(4)], [[1, 5], [1, 2], [0, 1], [3, 0]])
            self.assertEqual((first.arrived().tick, second.arrived().tick), (1, 4))

    def test_verdicts(self):
        with self.fleet(CORRIDOR, [0], queue=1) as fleet:
            for robot, cell, name, code in ((1, 0, "no-robot", Verdict.NO_ROBOT), (0, 3, "no-cell", Verdict.NO_CELL)):
                with self.assertRaises(OrderRefused) as caught:
                    fleet.go(robot, cell).accepted()
                self.assertEqual((caught.exception.name, caught.exception.code), (name, code))
            fleet.go(0, 2)
            with self.assertRaises(Refused) as caught:
                fleet.go(0, 1).accepted()
            self.assertEqual(caught.exception.name, "queue-full")

    def test_withdraw(self):
        with self.fleet(CORRIDOR, [0]) as fleet:
            first, second = fleet.go(0, 2), fleet.go(0, 0)
            fleet.withdraw(second)
            with self.assertRaises(Refused) as caught:
                fleet.withdraw(first)
            self.assertEqual(caught.exception.name, "too-late")
            fleet.tick(2)
            self.assertEqual(first.arrived().tick, 2)
            with self.assertRaises(Refused) as caught:
                second.arrived()
            self.assertEqual(caught.exception.name, "withdrawn")
            self.assertEqual((first.state, second.state), ("arrived", "withdrawn"))

    def test_shut_and_close(self):
        with self.fleet(CORRIDOR, [0], clients=2) as fleet:
            fleet.close_client(1)
            with self.assertRaises(Refused) as caught:
                fleet.go(0, 1, client=1).accepted()
            self.assertEqual(caught.exception.name, "client-closed")
            fleet.go(0, 1)
            self.assertIsNone(fleet.shut(0))
            fleet.tick()
            self.assertEqual([farewell.robot for farewell in fleet.farewells], [0])
            with self.assertRaises(Refused) as caught:
                fleet.shut(0)
            self.assertEqual(caught.exception.name, "already-shut")

    def test_mailbox_makes_room(self):
        with self.fleet(CORRIDOR, [0], mailbox=2, queue=9) as fleet:
            first, second = fleet.go(0, 1), fleet.go(0, 2)
            self.assertEqual(first.accepted(), 1)
            with self.assertRaises(Waiting):
                second.accepted()
            fleet.tick()
            self.assertEqual(second.accepted(), 2)
            fleet.tick()
            self.assertEqual(second.arrived().cell, 2)

    def test_chapters_are_traces(self):
        with tempfile.TemporaryDirectory() as traces:
            with self.fleet(CORRIDOR, [0], chapter=4, traces=traces) as fleet:
                errands = [fleet.go(0, cell) for cell in (2, 0)]
                fleet.tick(9)
                self.assertEqual(fleet.chapter().number, 2)
                self.assertEqual(errands[1].arrived().tick, 4)
            self.assertEqual(sorted(os.listdir(traces)), [*(f"chapter-{n}.json" for n in range(4)), "fleet.lock"])
            texts = []
            for n in range(4):
                with open(os.path.join(traces, f"chapter-{n}.json")) as file:
                    texts.append(json.load(file))
            self.assertEqual([text["chapter"] for text in texts], [0, 1, 2, 3])
            self.assertEqual([len(text["entries"]) for text in texts], [4, 4, 3, 0])

    def test_refused_opening(self):
        for robots, name in (([0, 0], "start-shared"), ([9], "start-blocked"), ([4], "start-blocked")):
            with self.assertRaises(Refused) as caught:
                self.fleet(RING, robots)
            self.assertEqual(caught.exception.name, name)

    def test_no_map(self):
        with self.assertRaises(Refused) as caught:
            self.fleet("no map\n", [0])
        self.assertEqual((caught.exception.name, caught.exception.numbers), ("map-header", (1, 0)))

    def test_clock_is_spent(self):
        with self.fleet(CORRIDOR, [0], clock=2) as fleet:
            fleet.tick(2)
            with self.assertRaises(Refused) as caught:
                fleet.tick()
            self.assertEqual(caught.exception.name, "clock-spent")
        self.assertEqual(fleet.status, 8)

    def test_closed_fleet(self):
        fleet = self.fleet(CORRIDOR, [0])
        fleet.close()
        with self.assertRaises(Ended):
            fleet.tick()

    def test_five_hundred_robots(self):
        text = "type octile\nheight 32\nwidth 32\nmap\n" + ("." * 32 + "\n") * 32
        with self.fleet(text, list(range(512)), clients=64) as fleet:
            errand = fleet.go(511, 1023, client=63)
            fleet.tick(16)
            self.assertEqual(errand.arrived().cell, 1023)


class LinesTest(unittest.TestCase):
    """What a client meets that writes lines of its own."""

    def talk(self, text, *words):
        with tempfile.TemporaryDirectory() as folder:
            path = os.path.join(folder, "ring.map")
            with open(path, "w") as file:
                file.write(RING)
            return subprocess.run([PROGRAM, "talk", *words, path], input=text, capture_output=True, timeout=60)

    def test_bad_lines_change_nothing(self):
        bad = [b"teleport 0", b"\xff\xfe\x00", b"x" * 8193, b"tick x", b"robots 0", b"tick 0", b"chapter 5", b"@m", b" # no comment"]
        lines = [b"robots 0 8", b"tick"] + bad + [b"look"]
        said = self.talk(b"\n".join(lines) + b"\n")
        answers = said.stdout.split(b"\n")
        self.assertEqual(answers[0], b"tick 1: 0 8")
        # a mark alone asks nothing
        numbers = [n for n in range(3, 3 + len(bad)) if n != 10]
        self.assertEqual(answers[1:-2], [b"bad-line %d" % n for n in numbers])
        self.assertEqual(answers[-2], b"look tick 1 chapter 0 entries 1 idle within 0 at 0 8")
        self.assertEqual((said.returncode, said.stderr), (0, b""))

    def test_long_lines(self):
        said = self.talk(b"robots 0\n#" + b"x" * 8191 + b"\n@m " + b"y" * 2_000_000 + b"\n#" + b"z" * 8192 + b"\ntick")
        self.assertEqual(said.stdout, b"@m bad-line 3\nbad-line 4\ntick 1: 0\n")

    def test_marks(self):
        said = self.talk(b"@a robots 0\n@b tick 2\n\n@c no\n", "--marks")
        self.assertEqual(said.stdout, b"@a . 1\n@b tick 1: 0\n@b tick 2: 0\n@b . 2\n. 3\n@c bad-line 4\n@c . 4\n")

    def test_no_robots(self):
        said = self.talk(b"tick\nlook\nrobots 0\ntick\n")
        self.assertEqual(said.stdout, b"bad-line 1\nbad-line 2\ntick 1: 0\n")

    def test_input_ends_before_the_fleet_is_opened(self):
        said = self.talk(b"robots 0\n")
        self.assertEqual((said.stdout, said.returncode), (b"", 0))

    def test_reader_goes_away(self):
        with tempfile.TemporaryDirectory() as folder:
            path = os.path.join(folder, "ring.map")
            with open(path, "w") as file:
                file.write(RING)
            process = subprocess.Popen([PROGRAM, "talk", path], stdin=subprocess.PIPE, stdout=subprocess.PIPE, stderr=subprocess.PIPE)
            process.stdout.close()
            process.stdin.write(b"robots 0\ntick\n")
            process.stdin.close()
            self.assertEqual(process.stderr.read(), b"fleet: file standard output cannot be written: Broken pipe (os error 32)\n")
            process.stderr.close()
            self.assertEqual(process.wait(60), 3)


if __name__ == "__main__":
    unittest.main()

"""One program, run with either class named Fleet: over pipes and in this process. What is wanted is worked out by hand.

The program `fleet` and the library are found as `nashirudder.finding` says.
"""

import json
import os
import pathlib
import random
import shutil
import tempfile
import threading
import unittest

import nashirudder
from nashirudder import library
from nashirudder import Arrival, Chapter, Ended, Farewell, FileFailed, FleetError, Look, OrderRefused, OutOfRange
from nashirudder import OpenErrand, Refused, Standing, Waiting
from nashirudder.names import Code, Verdict

RING = "type octile\nheight 3\nwidth 4\nmap\n....\n.@..\n....\n"
ROW = "type octile\nheight 1\nwidth 3\nmap\n...\n"
APART = "type octile\nheight 1\nwidth 3\nmap\n.@.\n"


def chapters_in(folder):
    """The names of the files in a folder, but for the lock, which stays there."""
    return sorted(name for name in os.listdir(folder) if name != "fleet.lock")


class Folder(unittest.TestCase):
    """A test with maps, and with folders for chapters."""

    def setUp(self):
        folder = tempfile.TemporaryDirectory()
        self.addCleanup(folder.cleanup)
        self.path = pathlib.Path(folder.name)
        for name, text in (("ring", RING), ("row", ROW), ("apart", APART)):
            (self.path / name).write_text(text)

    def traces(self, name="traces"):
        folder = self.path / name
        folder.mkdir()
        return folder

    def open(self, kind, map, robots, **words):
        fleet = kind(self.path / map, robots=robots, timeout=60, **words)
        self.addCleanup(fleet.__exit__, KeyError)
        return fleet


class Programs:
    """The programs; `kind` is the class."""

    def fleet(self, map, robots, **words):
        return self.open(self.kind, map, robots, **words)

    def refused(self, kind, name, call, code=None, numbers=None):
        with self.assertRaises(Refused) as caught:
            call()
        self.assertEqual((type(caught.exception), caught.exception.name), (kind, name))
        if code is not None:
            self.assertEqual(caught.exception.code, code)
        if numbers is not None:
            self.assertEqual(caught.exception.numbers, numbers)

    def test_errands(self):
        with self.fleet("ring", [0, 3], clients=2) as fleet:
            self.assertEqual((fleet.cells, list(fleet.placement()), fleet.status), ([0, 3], [0, 3], None))
            first, second = fleet.go(robot=0, cell=2), fleet.go(robot=1, cell=7, client=1)
            self.assertEqual((first.state, first.accepted(), second.accepted()), ("accepted", 1, 1))
            self.assertIsInstance(fleet.look().within, int)
            self.assertEqual(fleet.tick(), [1, 7])
            self.assertEqual(fleet.arrivals, [Arrival(1, 1, 1, 7, 1, 0)])
            self.assertEqual((first.arrived(), second.arrived()), (None, Arrival(1, 1, 1, 7, 1, 0)))
            self.assertEqual((first.state, second.state), ("accepted", "arrived"))
            self.assertEqual(fleet.look().eldest, 0)
            self.assertEqual(fleet.tick(), [2, 7])
            self.assertEqual((first.arrived(), fleet.cells), (Arrival(0, 0, 1, 2, 2, 0), [2, 7]))
            self.assertEqual(list(fleet.placement()), [2, 7])
            self.assertEqual(fleet.look(), Look(2, 0, 4, None, 0, [2, 7]))
            self.assertTrue(fleet.look().idle)
        self.assertEqual(fleet.status, 0)

    def test_queues(self):
        with self.fleet("ring", [0, 3], clients=2) as fleet:
            free = [Standing("free", 0, None, 0, None), Standing("free", 3, None, 0, None)]
            self.assertEqual((fleet.standings(), fleet.queue(0), fleet.open_errands(1)), (free, [], []))
            asked = ((0, 11, 0), (0, 8, 1), (1, 3, 0), (0, 2, 0))
            given_up = [fleet.go(robot, cell, client) for robot, cell, client in asked][1]
            first, second, third = OpenErrand(0, 1, 0, 11, 1), OpenErrand(1, 1, 0, 8, 2), OpenErrand(0, 3, 0, 2, 3)
            own = OpenErrand(0, 2, 1, 3, 1)
            self.assertEqual((fleet.queue(0), fleet.queue(1)), ([first, second, third], [own]))
            self.assertEqual((fleet.open_errands(), fleet.open_errands(1)), ([first, third, own], [second]))
            # Robot 0 goes east, the first of its two shortest ways. Robot 1 is where it is sent to.
            fleet.tick()
            stands = [Standing("busy", 1, 11, 3, 1), Standing("free", 3, None, 0, None)]
            self.assertEqual(fleet.standings(), stands)
            fleet.withdraw(given_up)
            fleet.shut(0), fleet.shut(1)
            stands = [Standing("shut", 1, 11, 2, 1), Standing("shut", 3, None, 0, None)]
            self.assertEqual(fleet.standings(), stands)
            fleet.chapter()
            self.assertEqual((fleet.standings(), fleet.queue(0)), (stands, [first, OpenErrand(0, 3, 0, 2, 2)]))
            # Four edges further it arrives, and waits anew for its next errand.
            fleet.tick(5)
            self.assertEqual(fleet.standings()[0], Standing("shut", 7, 2, 1, 1))
            self.refused(Refused, "no-robot", lambda: fleet.queue(2), Code.NO_ROBOT)
            self.refused(Refused, "no-client", lambda: fleet.open_errands(2), Code.NO_CLIENT)
            for number in (-1, 2**32, "0", None):
                for call in (fleet.queue, fleet.open_errands):
                    with self.assertRaises(OutOfRange):
                        call(number)

    def test_long_queues(self):
        with self.fleet("ring", [0], queue=40) as fleet:
            errands = [fleet.go(0, 1) for _ in range(40)]
            self.assertEqual([errand.place for errand in fleet.queue(0)], list(range(1, 41)))
            numbers = [errand.accepted() for errand in errands]
            self.assertEqual([errand.number for errand in fleet.open_errands()], numbers)

    def test_verdicts(self):
        with self.fleet("ring", [0, 3], queue=2, life=3, clients=2) as fleet:
            for robot, cell, verdict in ((9, 1, Verdict.NO_ROBOT), (0, 99, Verdict.NO_CELL), (0, 5, Verdict.BLOCKED)):
                errand = fleet.go(robot, cell)
                self.refused(OrderRefused, verdict.word, errand.accepted, verdict, ())
                self.refused(OrderRefused, verdict.word, errand.arrived)
                self.assertEqual(errand.state, "refused")
            front, behind = fleet.go(0, 11), fleet.go(0, 1)
            self.refused(OrderRefused, "queue-full", fleet.go(0, 1).accepted)
            self.refused(OrderRefused, "too-late", lambda: fleet.withdraw(front))
            fleet.withdraw(behind)
            self.assertEqual(behind.state, "withdrawn")
            self.refused(OrderRefused, "withdrawn", behind.arrived)
            self.refused(OrderRefused, "no-errand", lambda: fleet.withdraw(behind))
            self.assertEqual(fleet.go(0, 2).accepted(), 3)
            self.refused(OrderRefused, "life-spent", fleet.go(1, 2).accepted)
            fleet.close_client(1)
            self.refused(OrderRefused, "client-closed", lambda: fleet.close_client(1))
            self.refused(OrderRefused, "client-closed", fleet.go(0, 2, client=1).accepted)
            self.refused(Refused, "no-client", lambda: fleet.go(0, 2, client=2), Code.NO_CLIENT)
            self.refused(Refused, "no-client", lambda: fleet.close_client(2))
            other = self.open(self.kind, "ring", [0]).go(0, 1)
            with self.assertRaises(OutOfRange):
                fleet.withdraw(other)
        with self.fleet("apart", [0]) as fleet:
            self.refused(OrderRefused, "unreachable", fleet.go(0, 2).accepted)

    def test_shuts(self):
        with self.fleet("row", [0, 2]) as fleet:
            fleet.go(0, 1)
            self.assertIsNone(fleet.shut(0))
            self.assertEqual((fleet.shut(1), fleet.farewells), (Farewell(1, 0), [Farewell(1, 0)]))
            self.refused(OrderRefused, "robot-shut", fleet.go(1, 1).accepted)
            self.refused(Refused, "already-shut", lambda: fleet.shut(0), Code.ALREADY_SHUT)
            self.refused(Refused, "no-robot", lambda: fleet.shut(2), Code.NO_ROBOT)
            fleet.tick(3)
            self.assertEqual((fleet.farewells, fleet.arrivals), ([Farewell(0, 0)], [Arrival(0, 0, 1, 1, 1, 0)]))
            fleet.tick()
            self.assertEqual((fleet.farewells, fleet.arrivals), ([], []))

    def test_one_client_sends_an_errand_to_each_of_300_robots(self):
        (self.path / "open").write_text("type octile\nheight 20\nwidth 20\nmap\n" + ("." * 20 + "\n") * 20)
        with self.fleet("open", list(range(300))) as fleet:
            errands = [fleet.go(robot, 399 - robot) for robot in range(300)]
            self.assertEqual([errand.accepted() for errand in errands], list(range(1, 301)))
            self.assertEqual({standing.state for standing in fleet.standings()}, {"busy"})

    def test_mailboxes_and_lanes(self):
        with self.fleet("row", [0], mailbox=2, lane=2) as fleet:
            first, second, third = (fleet.go(0, cell) for cell in (2, 0, 1))
            self.assertEqual(first.accepted(), 1)
            for errand in (second, third):
                with self.assertRaises(Waiting):
                    errand.accepted()
                self.assertEqual(errand.state, "posted")
            self.refused(Refused, "lane-full", lambda: fleet.go(0, 1), 0)
            with self.assertRaises(Waiting):
                fleet.withdraw(second)
            fleet.tick(2)
            self.assertEqual((first.arrived().tick, second.accepted()), (2, 2))
            fleet.tick(2)
            self.assertEqual((second.arrived().tick, third.accepted()), (4, 3))

    def test_chapters(self):
        with self.fleet("row", [0], chapter=2, traces=self.traces()) as fleet:
            fleet.go(0, 2)
            fleet.tick(2)
            self.assertEqual((fleet.look().chapter, fleet.look().entries), (1, 1))
            self.assertEqual(fleet.chapter(), Chapter(1, 1))
        self.assertEqual(chapters_in(self.path / "traces"), [f"chapter-{number}.json" for number in range(3)])
        told = [json.loads((self.path / "traces" / f"chapter-{number}.json").read_text()) for number in range(3)]
        kinds = [[entry[0] for entry in chapter["entries"]] for chapter in told]
        self.assertEqual(kinds, [["take", "tick"], ["tick"], []])

    def test_a_full_chapter(self):
        with self.fleet("row", [0], chapter=2, roll=False) as fleet:
            errands = [fleet.go(0, cell) for cell in (1, 2, 0)]
            self.assertEqual([errand.state for errand in errands], ["accepted", "accepted", "posted"])
            self.refused(Refused, "chapter-full", errands[2].accepted, Code.CHAPTER_FULL)
            self.refused(Refused, "chapter-full", fleet.tick)
            self.refused(Refused, "chapter-full", lambda: fleet.shut(0))
            self.assertEqual(fleet.chapter(), Chapter(0, 2))
            self.assertEqual((errands[2].accepted(), fleet.tick()), (3, [1]))
        self.assertEqual(fleet.status, 8)

    def test_the_last_chapter(self):
        with self.fleet("row", [0], chapter=2, chapters=2) as fleet:
            self.refused(Refused, "chapter-full", lambda: fleet.tick(9))
            self.assertEqual((fleet.look().tick, fleet.look().chapter), (4, 1))
            self.refused(Refused, "book-spent", fleet.chapter, Code.BOOK_SPENT)
        self.assertEqual(fleet.status, 8)

    def test_a_spent_clock(self):
        with self.fleet("row", [0], clock=2) as fleet:
            errand = fleet.go(0, 2)
            self.refused(Refused, "clock-spent", lambda: fleet.tick(3), Code.CLOCK_SPENT)
            # The ticks before it were made.
            self.assertEqual((fleet.cells, fleet.arrivals, errand.state), ([2], [Arrival(0, 0, 1, 2, 2, 0)], "arrived"))
        self.assertEqual(fleet.status, 8)

    def test_openings(self):
        starts = (
            ([0, 0], Code.START_SHARED, (0, 1)),
            ([7, 3, 0, 4, 0, 3], Code.START_SHARED, (1, 5)),
            ([99], Code.START_BLOCKED, (0, 0)),
            ([0, 0, 5], Code.START_BLOCKED, (2, 0)),
            ([], Code.ROBOT_COUNT, (0, 0)),
        )
        for robots, code, numbers in starts:
            self.refused(Refused, code.word, lambda: self.fleet("ring", robots), code, numbers)
        sizes = (("queue", 0), ("clients", 0), ("clients", 65), ("mailbox", 1), ("clock", 2**48 + 1), ("lane", 65537))
        for name, number in sizes:
            with self.subTest(name):
                self.refused(Refused, "bad-setup", lambda: self.fleet("ring", [0], **{name: number}), Code.BAD_SETUP)
        with self.assertRaises(TypeError):
            self.fleet("ring", [0], speed=2)
        maps = (
            ("no map\n", Code.MAP_HEADER, (1, 0)),
            (RING.replace("3", "0"), Code.MAP_SIZE, (0, 0)),
            (RING.replace(".@..", ".@."), Code.MAP_ROW, (1, 0)),
            (RING.replace("@", "x"), Code.MAP_CELL, (1, 1)),
            (RING + "x\n", Code.MAP_TRAILING, (8, 0)),
        )
        for text, code, numbers in maps:
            (self.path / "map").write_text(text)
            self.refused(Refused, code.word, lambda: self.fleet("map", [0]), code, numbers)
        with self.assertRaises(FileFailed):
            self.fleet("none", [0])

    def test_numbers(self):
        with self.fleet("ring", [0, 3], clients=2) as fleet:
            for number in (-1, 2**32, 2**32 + 2, 1.0, None, "08", "1\ntick"):
                calls = (
                    lambda n: fleet.go(n, 1), lambda n: fleet.go(0, n), lambda n: fleet.go(0, 1, client=n), fleet.shut,
                    fleet.tick, fleet.close_client,
                )
                for call in calls:
                    with self.subTest(number=number), self.assertRaises(OutOfRange):
                        call(number)
                for words in ({"clients": number}, {"queue": number}):
                    if words == {"queue": None}:
                        continue  # a limit that is not given
                    with self.assertRaises(OutOfRange):
                        self.fleet("ring", [0], **words)
                with self.assertRaises(OutOfRange):
                    self.fleet("ring", [number])
            for count in (0, 1_000_001):
                with self.assertRaises(OutOfRange):
                    fleet.tick(count)
            self.assertEqual(fleet.look(), Look(0, 0, 0, None, 0, [0, 3]))

    def test_folders(self):
        folder = self.traces()
        with self.fleet("row", [0], traces=folder) as first:
            first.tick()
            for kind in KINDS:
                with self.subTest(kind=kind), self.assertRaises(FileFailed) as caught:
                    self.open(kind, "row", [0], traces=folder)
                self.assertIn("in use by another fleet", str(caught.exception))
        self.assertEqual(chapters_in(folder), ["chapter-0.json"])
        for name, why in ((folder, "has chapters of another fleet"), (self.path / "none", "cannot be written")):
            with self.assertRaises(FileFailed) as caught:
                self.fleet("row", [0], traces=name)
            self.assertIn(why, str(caught.exception))
        with self.assertRaises(OutOfRange):
            self.fleet("row", [0], traces="")
        self.assertEqual(chapters_in(folder), ["chapter-0.json"])

    def test_goes_on(self):
        words = dict(clients=2, traces=self.traces(), resume=True, queue=3)
        # An empty folder begins anew.
        with self.fleet("ring", [0, 3], **words) as fleet:
            self.assertEqual((fleet.go(0, 11).accepted(), fleet.go(1, 4, client=1).accepted()), (1, 1))
            fleet.close_client(1)
            fleet.shut(1)
            fleet.tick()
            cells = fleet.cells
        # Either class goes on from what either kept.
        for made, kind in enumerate(KINDS, 1):
            with self.open(kind, "ring", [0, 3], **words) as fleet:
                self.assertEqual(fleet.look(), Look(made, made, 0, 0, fleet.look().within, cells))
                self.assertEqual([errand.number for errand in fleet.open_errands()], list(range(1, made + 1)))
                self.assertEqual(fleet.open_errands(1), [OpenErrand(1, 1, 1, 4, 1)])
                self.assertEqual(fleet.go(0, 11 - made).accepted(), made + 1)
                for robot, client, name in ((0, 1, "client-closed"), (1, 0, "robot-shut")):
                    self.refused(OrderRefused, name, fleet.go(robot, 4, client=client).accepted)
                fleet.tick()
                cells = fleet.cells
        with self.fleet("ring", [0, 3], **words) as fleet:
            fleet.tick(fleet.look().within)
            told = [(one.client, one.number) for one in fleet.arrivals]
            self.assertEqual(sorted(told), [(0, 1), (0, 2), (0, 3), (1, 1)])
            self.assertEqual([one.robot for one in fleet.farewells], [1])

    def test_does_not_go_on(self):
        folder = self.traces()
        words = dict(clients=2, traces=folder, resume=True, queue=3)
        with self.fleet("ring", [0, 3], **words) as fleet:
            fleet.tick()

        def fails(told, robots=(0, 3), **more):
            with self.subTest(told), self.assertRaises(FileFailed) as caught:
                self.fleet("ring", robots, **{**words, **more})
            self.assertIn(told, str(caught.exception))

        name = folder / "chapter-0.json"
        fails("robots", [0])
        fails("clients", clients=1)
        fails("the limits `queue` and `life`" if self.kind is library.Fleet else "another `queue` or `life`", queue=4)
        fails("no chapter follows", chapters=1)
        text = name.read_text()
        no_form = "the form of a trace" if self.kind is library.Fleet else "its keys are not `version`, `chapter`"
        for told, broken in (
            ("not JSON", text[:-3]), (no_form, '{"version":2}'), ("it is chapter 5", text.replace('"chapter":0', '"chapter":5')),
            ("entry 1", text.replace('[0,3],[]', '[0,11],[]')),
        ):
            name.write_text(broken)
            fails(told)
        name.rename(folder / "chapter-00.json")
        fails("no chapter has this name")
        (folder / "chapter-00.json").rename(folder / "chapter-2.json")
        (folder / "chapter-0.json").write_text(text)
        fails("chapter-1.json: it is missing")
        self.assertEqual(chapters_in(folder), ["chapter-0.json", "chapter-2.json"])
        with self.assertRaises(OutOfRange):
            self.fleet("ring", [0, 3], resume=True)

    def test_a_last_chapter_that_is_lost(self):
        for raised in (FileFailed, KeyError):
            folder = self.traces("lost")
            with self.assertRaises(raised):
                with self.fleet("row", [0], traces=folder) as fleet:
                    fleet.tick()
                    shutil.rmtree(folder)
                    if raised is KeyError:
                        raise KeyError("what happened within the block is not hidden")
            self.assertEqual(fleet.status, 3)
            fleet.close()

    def test_a_chapter_that_cannot_be_written(self):
        folder = self.traces()
        fleet = self.fleet("row", [0], traces=folder)
        (folder / "chapter-0.part").mkdir()
        with self.assertRaises(FileFailed):
            fleet.chapter()

    def test_a_closed_fleet(self):
        fleet = self.fleet("row", [0])
        errand = fleet.go(0, 2)
        fleet.close()
        fleet.close()
        calls = (
            fleet.tick, fleet.look, fleet.chapter, fleet.close_client, lambda: fleet.go(0, 1), lambda: fleet.shut(0),
            lambda: fleet.withdraw(errand), fleet.standings, fleet.open_errands, lambda: fleet.queue(0),
        )
        for call in calls:
            with self.assertRaises(Ended) as caught:
                call()
            self.assertEqual((str(caught.exception), caught.exception.status), ("the fleet is closed", 0))
        # What is known is said all the same.
        self.assertEqual((errand.accepted(), errand.arrived(), fleet.cells, fleet.arrivals), (1, None, [0], []))

    def test_threads(self):
        with self.fleet("ring", [0, 3], clients=4) as fleet:
            failed, ticks = [], []

            def work(client):
                try:
                    for _ in range(25):
                        try:
                            fleet.go(client % 2, client, client=client).accepted()
                        except OrderRefused as refused:
                            if refused.name != "queue-full":
                                raise
                        fleet.tick()
                        ticks.append(fleet.look().tick)
                except FleetError as error:
                    failed.append(error)

            threads = [threading.Thread(target=work, args=(client,)) for client in range(4)]
            for thread in threads:
                thread.start()
            for thread in threads:
                thread.join(60)
            self.assertEqual((failed, [thread.is_alive() for thread in threads], max(ticks)), ([], [False] * 4, 100))


class OverPipes(Programs, Folder):
    kind = nashirudder.Fleet


class InProcess(Programs, Folder):
    kind = library.Fleet


KINDS = (nashirudder.Fleet, library.Fleet)


class Alike(Folder):
    """Random calls are answered alike, and leave the same chapters byte for byte."""

    def told(self, call):
        try:
            told = call()
        except FleetError as error:
            return (type(error), *(getattr(error, name, None) for name in ("name", "code", "numbers")))
        return told if isinstance(told, (list, Look, Chapter, Farewell, Arrival, int, type(None))) else type(told)

    def play(self, kind, seed):
        """What a fleet of this class answers to the calls of a seed, and its chapters."""
        draw = random.Random(seed)
        sizes = {"queue": [1, 2, 3], "mailbox": [2, 3, 64], "lane": [1, 64], "life": [2, 1000], "clock": [9, 1000],
                 "chapter": [1, 5, 1000], "chapters": [2, 1000]}
        limits = {name: draw.choice(numbers) for name, numbers in sizes.items()}
        folder, errands, heard = self.traces(f"{kind.__module__}-{seed}"), [], []
        with self.open(kind, "ring", [0, 3, 10], clients=2, traces=folder, roll=draw.random() < 0.7, **limits) as fleet:
            def go():
                errands.append(fleet.go(draw.randint(0, 3), draw.randint(0, 12), draw.choice([0, 0, 1, 1, 1, 2])))
                return errands[-1].accepted()

            calls = [go] * 8 + [lambda: fleet.tick(draw.randint(1, 3))] * 6
            calls += [fleet.look, fleet.chapter, lambda: fleet.shut(draw.randint(0, 3))]
            calls += [fleet.standings] * 2 + [lambda: fleet.queue(draw.randint(0, 3))]
            calls += [lambda: fleet.open_errands(draw.randint(0, 2))]
            calls += [lambda: fleet.withdraw(draw.choice(errands)) if errands else None]
            calls += [lambda: fleet.withdraw(errands[-1]) if errands else None]
            if draw.random() < 0.2:
                calls.append(lambda: fleet.close_client(draw.randint(0, 2)))
            for _ in range(60):
                heard += [self.told(draw.choice(calls)), fleet.arrivals, fleet.farewells, fleet.cells]
            heard += [self.told(errand.arrived) for errand in errands] + [errand.state for errand in errands]
        return heard, fleet.status, {name: (folder / name).read_bytes() for name in chapters_in(folder)}

    def test_alike(self):
        kinds = set()
        for seed in range(60):
            over_pipes, in_process = (self.play(kind, seed) for kind in KINDS)
            for count, (first, second) in enumerate(zip(over_pipes[0], in_process[0])):
                self.assertEqual(first, second, (seed, count))
            self.assertEqual(over_pipes, in_process, seed)
            kinds.update(answer[1] for answer in in_process[0] if isinstance(answer, tuple))
        # Most refusals come up, or the test tries too little.
        wanted = {"no-robot", "no-cell", "blocked", "queue-full", "life-spent", "too-late", "no-errand", "withdrawn",
                  "already-shut", "robot-shut", "clock-spent", "chapter-full", "book-spent", "lane-full", "no-client",
                  "client-closed"}
        self.assertLessEqual(wanted, kinds)


if __name__ == "__main__":
    unittest.main()

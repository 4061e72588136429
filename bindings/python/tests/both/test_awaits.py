"""Fleets in asyncio, and maps by their text: the same with both classes. FLEET names the built program."""

import array
import asyncio
import os
import pathlib
import tempfile
import unittest

import nashirudder
from nashirudder import Ended, LiveFleet, OrderRefused, Refused, finding, library

PROGRAM = finding.program(os.environ.get("FLEET"))
RING = "type octile\nheight 3\nwidth 3\nmap\n...\n.@.\n...\n"
KINDS = ((nashirudder.Fleet, {"built": PROGRAM}), (library.Fleet, {}))


async def arrival_of(errand):
    return await errand


class AwaitsTest(unittest.TestCase):
    def each(self, play):
        for kind, words in KINDS:
            with self.subTest(kind.__module__):
                asyncio.run(asyncio.wait_for(play(kind, words), 60))

    def test_an_errand_is_awaited(self):
        async def play(kind, words):
            async with kind(text=RING, robots=[0, 8], **words) as fleet:
                awaited = [asyncio.create_task(arrival_of(fleet.go(*goal))) for goal in ((0, 2), (1, 6), (0, 0))]
                while not all(one.done() for one in awaited):
                    await asyncio.to_thread(fleet.tick)
                    await asyncio.sleep(0)
                told = [one.result() for one in awaited]
                self.assertEqual([(one.robot, one.cell, one.tick) for one in told], [(0, 2, 2), (1, 6, 2), (0, 0, 4)])
            self.assertEqual(fleet.status, 0)

        self.each(play)

    def test_an_errand_that_does_not_come(self):
        async def play(kind, words):
            async with kind(text=RING, robots=[0, 8], **words) as fleet:
                with self.assertRaises(OrderRefused) as refused:
                    await fleet.go(0, 4)
                self.assertEqual(refused.exception.name, "blocked")
                fleet.go(0, 1)
                second = fleet.go(0, 2)
                awaited = asyncio.create_task(arrival_of(second))
                await asyncio.sleep(0)
                fleet.withdraw(second)
                with self.assertRaises(OrderRefused) as refused:
                    await awaited
                self.assertEqual(refused.exception.name, "withdrawn")
                never = asyncio.create_task(arrival_of(fleet.go(1, 0)))
                await asyncio.sleep(0)
            with self.assertRaises(Ended):
                await never
            with self.assertRaises(Ended):
                await arrival_of(never_begun)

        async def begun(kind, words):
            nonlocal never_begun
            async with kind(text=RING, robots=[0], **words) as fleet:
                never_begun = fleet.go(0, 8)
            await play(kind, words)

        never_begun = None
        self.each(begun)

    def test_a_fleet_that_moves_by_itself(self):
        async def play():
            async with LiveFleet(text=RING, robots=[0, 8], period_ms=2, built=PROGRAM) as fleet:
                told = await asyncio.gather(arrival_of(fleet.go(0, 2)), arrival_of(fleet.go(1, 6)))
                self.assertEqual([one.cell for one in told], [2, 6])
                fleet.close()
                with self.assertRaises(Ended):
                    fleet.go(0, 0)
            fleet = LiveFleet(text=RING, robots=[0, 8], built=PROGRAM)
            never = asyncio.create_task(arrival_of(fleet.go(0, 2)))
            await asyncio.sleep(0)
            fleet._program.process.kill()
            with self.assertRaises(Ended):
                await never
            with self.assertRaises(Ended):
                fleet.close()

        asyncio.run(asyncio.wait_for(play(), 60))

    def test_a_map_is_a_path_or_a_text(self):
        with tempfile.TemporaryDirectory() as folder:
            path = pathlib.Path(folder) / "ring.map"
            path.write_text(RING)
            for kind, words in KINDS:
                for map in ({"map": path}, {"map": str(path)}, {"text": RING}, {"text": RING.encode()}):
                    with self.subTest(kind.__module__, map=map), kind(robots=[0, 8], **map, **words) as fleet:
                        self.assertEqual(fleet.tick(), [0, 8])
                for map in ({}, {"map": path, "text": RING}):
                    self.assertRaises(TypeError, kind, robots=[0], **map, **words)
                with self.assertRaises(Refused) as refused:
                    kind(text=RING, robots=[0, 4], **words)
                self.assertEqual((refused.exception.name, refused.exception.numbers), ("start-blocked", (1, 0)))
                with self.assertRaises(Refused) as refused:
                    kind(text="type octile\n", robots=[0, 4], **words)
                self.assertEqual((refused.exception.name, refused.exception.numbers), ("map-header", (2, 0)))
            with library.Handle(path, [0]) as fleet, library.Map(path) as map:
                self.assertEqual((list(fleet.placement()), map.floor, library.first_bridge(path)), ([0], 8, None))
            with self.assertRaises(nashirudder.FileFailed):
                library.Handle(path / "none", [0])

    def test_lists_of_goals_and_arrays_of_cells(self):
        for kind, words in KINDS:
            with self.subTest(kind.__module__), kind(text=RING, robots=[0, 8], clients=2, **words) as fleet:
                errands = fleet.go_many([0, 1, 1], array.array("I", [2, 4, 6]), client=1)
                self.assertEqual([one.state for one in errands], ["accepted", "refused", "accepted"])
                self.assertEqual([(one.client, one.robot, one.cell) for one in errands], [(1, 0, 2), (1, 1, 4), (1, 1, 6)])
                self.assertRaises(nashirudder.OutOfRange, fleet.go_many, [0], [1, 2])
                self.assertRaises(nashirudder.OutOfRange, fleet.go_many, [0, -1], [1, 2])
                with self.assertRaises(Refused):
                    fleet.go_many([0], [1], client=2)
                cells = array.array("I", [9, 9])
                fleet.tick()
                self.assertIs(fleet.placement(out=cells), cells)
                self.assertEqual(list(cells), fleet.cells)
                self.assertRaises(nashirudder.OutOfRange, fleet.placement, out=array.array("I", [9]))
                self.assertEqual(len(fleet.open_errands(1)), 2)

    def test_a_limit_of_zero_fits_the_robots(self):
        rows = "....................\n" * 30
        for kind, words in KINDS:
            limits = {"mailbox": 0, "lane": 0, "outlet": 0}
            for more in ({}, limits):
                with kind(text="type octile\nheight 30\nwidth 20\nmap\n" + rows, robots=range(300), **more, **words) as fleet:
                    errands = [fleet.go(robot, robot + 1) for robot in range(300)]
                    self.assertEqual([errand.accepted() for errand in errands], list(range(1, 301)))


if __name__ == "__main__":
    unittest.main()

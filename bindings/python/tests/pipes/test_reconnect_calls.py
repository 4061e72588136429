"""What becomes of the calls of a LiveFleet whose program is killed, and what `reconnect` refuses. FLEET names the built program. What is to be said is
worked out by hand.
"""

import asyncio
import os
import re
import signal
import threading
import unittest
from unittest import mock

from kept_chapters import PROGRAM, TOP
from killed_fleets import KilledFleetsTest
from nashirudder import Ended, FileFailed, LiveFleet, OrderRefused, OutOfRange, Refused


class ReconnectCallsTest(KilledFleetsTest):
    # ---- orders that were not read

    def stand_still(self, fleet, *orders):
        """What `go` returns of orders, each in a thread, while the program stands still, before it is killed."""
        os.kill(fleet._program.process.pid, signal.SIGSTOP)
        made, threads = {}, []
        for key, order in enumerate(orders):
            threads.append(threading.Thread(target=lambda key=key, order=order: made.setdefault(key, fleet.go(*order))))
            threads[-1].start()
            while sum(len(memory._orders) for memory in list(fleet._said._memories.values())) <= key:
                threading.Event().wait(0.001)
        self.kill(fleet)
        for thread in threads:
            thread.join()
        return [made[key] for key in range(len(orders))]

    def test_orders_under_way(self):
        """A program that stands still reads no order: each `go` returns its errand once it was killed."""
        with self.live(clients=2, mailbox=2, lane=1) as fleet:
            first = fleet.go(0, 2)
            self.assertEqual(first.accepted(60), 1)
            second, third, blocked = self.stand_still(fleet, (0, 1), (0, 0), (1, 4, 1))
            self.assertEqual([second.state, third.state, blocked.state], ["posted"] * 3)
            # The mailbox has room for one errand under way, and the lane for one order that waits for its verdict: the third is held up.
            fleet.reconnect()
            self.assertEqual([second.state, third.state, blocked.state], ["posted", "posted", "refused"])
            with self.assertRaises(OrderRefused) as caught:
                blocked.accepted()
            self.assertEqual(caught.exception.name, "blocked")
            fleet.tick(2)
            self.assertEqual((first.arrived(60).tick, third.state), (2, "posted"))
            fleet.tick()
            self.assertEqual((second.accepted(60), second.arrived(60).tick, third.accepted(60)), (2, 3, 3))
            fleet.tick()
            self.assertEqual(third.arrived(60).tick, 4)
        self.assertEqual(self.taken(), {
            0: [[["go", 0, 2], ["accepted", 1]], [["go", 0, 1], ["accepted", 2]], [["go", 0, 0], ["accepted", 3]]], 1: [[["go", 1, 4], ["refused", 5]]],
        })

    def test_an_order_that_is_not_posted(self):
        """It would have been refused at the door; `accepted` says so then."""
        with self.live() as fleet:
            errand, = self.stand_still(fleet, (0, 1, 3))
            fleet.reconnect()
            self.assertEqual(errand.state, "refused")
            with self.assertRaises(Refused) as caught:
                errand.accepted()
            self.assertEqual(caught.exception.name, "no-client")
            # A program that is known to have ended is sent nothing.
            self.kill(fleet)
            self.assertTrue(fleet._program.has_ended())
            with self.assertRaises(Ended):
                fleet.go(0, 1)
            fleet.reconnect()
            self.assertEqual((fleet.open_errands(), fleet.go(0, 1).accepted(60)), ([], 1))

    def test_without_a_journal_an_order_under_way_is_gone(self):
        with self.live(journal=False) as fleet:
            os.kill(fleet._program.process.pid, signal.SIGSTOP)
            said = []

            def go():
                try:
                    said.append(fleet.go(0, 1))
                except Ended as ended:
                    said.append(ended.status)

            thread = threading.Thread(target=go)
            thread.start()
            while not fleet._said._memories[0]._orders:
                threading.Event().wait(0.001)
            self.kill(fleet)
            thread.join()
            self.assertEqual(said, [-signal.SIGKILL])
            with self.assertRaises(OutOfRange):
                fleet.reconnect()
            with self.assertRaises(Ended):
                fleet.close()

    # ---- who goes on

    def test_a_fleet_that_runs_or_is_closed(self):
        fleet = self.live()
        process = fleet._program.process
        fleet.reconnect()
        self.assertIs(fleet._program.process, process)
        self.kill(fleet)
        fleet.reconnect()
        self.assertIsNot(fleet._program.process, process)
        fleet.close()
        self.assertEqual(fleet.status, 0)
        with self.assertRaises(Ended):
            fleet.reconnect()
        # One that was killed is closed as well.
        fleet = self.live()
        self.kill(fleet)
        with self.assertRaises(Ended):
            fleet.close()
        self.assertEqual(fleet.status, -signal.SIGKILL)

    def test_words(self):
        for words in ({"journal": True}, {"recall": -1}, {"recall": 16_777_217}, {"recall": "1"}):
            with self.subTest(words=words), self.assertRaises(OutOfRange):
                LiveFleet(self.map, [0, 8], built=PROGRAM, **words)

    def test_another_caller_goes_on(self):
        """Its orders have numbers that go on, and it is told nothing that was told before."""
        before = self.live(clients=2)
        self.assertEqual((before.go(0, 1).accepted(60), before.go(0, 7, 1).accepted(60)), (1, 1))
        before.tick()
        self.kill(before)
        with self.live(clients=2) as fleet:
            self.assertEqual([errand.number for errand in fleet.open_errands(1)], [1])
            errand = fleet.go(1, 5, 1)
            self.assertEqual(errand.accepted(60), 2)
            self.kill(fleet)
            fleet.reconnect()
            fleet.tick(9)
            self.assertEqual((errand.arrived(60).number, errand.arrived(60).tick), (2, 2))
            # Robot 0 was on its way for the caller before: its arrival was told, and is no errand of this one.
            self.assertEqual(sorted(arrival.number for arrival in fleet._said._ledger.arrivals), [1, 2])
        with self.assertRaises(Ended):
            before.close()

    def test_notices_before_the_first_answer(self):
        """What is told before the program has said which notices there were is taken in by the caller whose errand it is, once."""
        ticking = f"#!/bin/sh\n{{ echo tick 2; exec cat; }} | {PROGRAM} \"$@\"\n"
        with self.live() as fleet:
            fleet.go(0, 1).accepted(60)
        self.cut.write_text(ticking)
        with self.live(self.cut) as fleet:
            errand = fleet.go(0, 0)
            self.assertEqual(errand.accepted(60), 2)
            fleet.tick()
            self.assertEqual(errand.arrived(60).tick, 3)
            self.assertEqual([arrival.number for arrival in fleet._said._ledger.arrivals], [2])
        self.cut.write_text(f"#!/bin/sh\nexec {PROGRAM} \"$@\"\n")
        with self.live(self.cut) as fleet:
            errand = fleet.go(1, 7)
            self.assertEqual(errand.accepted(60), 3)
            self.kill(fleet)
            self.cut.write_text(ticking)
            fleet.reconnect()
            self.assertEqual((errand.state, errand.arrived(60).tick), ("arrived", 4))
            self.assertEqual([arrival.number for arrival in fleet._said._ledger.arrivals], [3])

    def test_an_errand_that_is_awaited(self):
        async def play():
            async with self.live() as fleet:
                errand = fleet.go(0, 1)

                async def wait():
                    return await errand

                task = asyncio.create_task(wait())
                await asyncio.sleep(0)
                await asyncio.to_thread(self.kill, fleet)
                with self.assertRaises(Ended):
                    await task
                await asyncio.to_thread(fleet.reconnect)
                await asyncio.to_thread(fleet.tick)
                return await errand

        self.assertEqual(asyncio.run(asyncio.wait_for(play(), 120)).tick, 1)

    def test_ticks_are_told_by_each_life(self):
        told = []
        with self.live(on_tick=lambda tick, cells: told.append((tick, cells))) as fleet:
            fleet.go(0, 2)
            fleet.tick()
            self.kill(fleet)
            fleet.reconnect()
            fleet.tick(2)
        # The answer to `tick` is the last turn's line.
        self.assertEqual(told, [(2, [2, 8])])

    # ---- what is refused

    def test_a_folder_that_was_gone(self):
        """The fleet ends since its journal cannot be written, and goes on once the folder is there again."""
        elsewhere = self.path / "elsewhere"
        fleet = self.live(chapter=1)
        errand = fleet.go(0, 1)
        self.assertEqual(errand.accepted(60), 1)
        os.rename(self.traces, elsewhere)
        with self.assertRaises(FileFailed):
            fleet.tick(9)
        with self.assertRaises(FileFailed):
            fleet.reconnect()
        os.rename(elsewhere, self.traces)
        fleet.reconnect()
        while errand.state != "arrived":
            fleet.tick()
        self.assertEqual(errand.arrived().tick, 1)
        fleet.close()

    def cannot_go_on(self, fleet, why):
        """Each try to go on fails for this reason, and the fleet has ended."""
        for _ in range(2):
            with self.assertRaises(FileFailed) as caught:
                fleet.reconnect()
            self.assertIn(why, str(caught.exception))
        with self.assertRaises(Ended):
            fleet.close()

    def test_another_history(self):
        fleet = self.live()
        self.assertEqual(fleet.go(0, 1).accepted(60), 1)
        self.kill(fleet)
        for name in self.chapters():
            (self.traces / name).unlink()
        self.cannot_go_on(fleet, "session 0 orders 0 notices 0 told from 1 closed false, and the client knows 1 verdicts and 1 notices")

    def test_notices_that_are_not_kept(self):
        """The verdict is in the journal, was not told, and is not told again."""
        self.cuts.write_text("within 3\n")
        fleet = self.live(self.cut, recall=0)
        errand = fleet.go(0, 1)
        with self.assertRaises(Ended):
            errand.accepted(60)
        self.cannot_go_on(fleet, "session 0 orders 1 notices 1 told from 2 closed false, and the client was told 0 notices")

    # ---- the page

    def test_the_example(self):
        """The example of the package's page, whose program is killed as each goal is posted the first time."""
        text = (TOP / "bindings" / "python" / "README.md").read_text()
        block, = (block for block in re.findall(r"```python\n(.*?)```", text, re.S) if "reconnect" in block)
        (self.path / "history").mkdir()
        (self.path / "examples").mkdir()
        (self.path / "examples" / "yard.map").write_bytes((TOP / "examples" / "yard.map").read_bytes())
        processes = set()

        class Killed(LiveFleet):
            def go(fleet, *order):
                if len(processes) < 2:
                    processes.add(fleet._program.process)
                    self.kill(fleet)
                return super().go(*order)

        printed, here = [], os.getcwd()
        os.chdir(self.path)
        try:
            with mock.patch.dict(os.environ, NASHIRUDDER_DIR=os.path.dirname(PROGRAM)), mock.patch("nashirudder.LiveFleet", Killed):
                exec(block, {"print": printed.append})
        finally:
            os.chdir(here)
        self.assertEqual(len(processes), 2)
        self.assertEqual([(one.robot, one.cell, one.number) for one in printed], [(0, 7, 1), (1, 3, 2)])


if __name__ == "__main__":
    unittest.main()

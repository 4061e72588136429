"""Calls of a fleet in this process are whole: signal handlers are held back meanwhile, and run between two ticks."""

import os
import pathlib
import signal
import threading
import time
import unittest

from nashirudder import opening
from nashirudder.library import Fleet, Handle
from nashirudder.turns import OwnTurns

RING = "type octile\nheight 3\nwidth 3\nmap\n...\n.@.\n...\n"


class TurnsTest(unittest.TestCase):
    def handler(self, number, handler):
        self.addCleanup(signal.signal, number, signal.signal(number, handler))

    def test_a_handler_that_raises_runs_when_the_call_is_done(self):
        turns, steps = OwnTurns(), []

        def interrupt(*_):
            raise KeyboardInterrupt

        self.handler(signal.SIGINT, interrupt)

        def work():
            steps.append("begun")
            os.kill(os.getpid(), signal.SIGINT)
            for _ in range(1000):
                pass
            steps.append("done")

        with self.assertRaises(KeyboardInterrupt):
            turns.make(work, None)
        self.assertEqual(steps, ["begun", "done"])
        self.assertIs(signal.getsignal(signal.SIGINT), interrupt)
        self.assertEqual(turns.make(lambda: 7, None), 7)

    def test_handlers_run_between_two_ticks(self):
        ticks = []
        with Fleet(text=RING, robots=[0, 8]) as fleet:
            # It may call the fleet itself, and change the handlers.
            def alarm(*_):
                ticks.append(fleet.look().tick)
                signal.signal(signal.SIGALRM, signal.SIG_IGN)

            self.handler(signal.SIGALRM, alarm)
            signal.setitimer(signal.ITIMER_REAL, 0.05)
            begun = time.monotonic()
            while not ticks and time.monotonic() < begun + 30:
                fleet.tick(20_000)
            self.assertEqual(len(ticks), 1)
            self.assertGreater(ticks[0] % 20_000, 0)
            self.assertEqual(fleet.look().tick % 20_000, 0)
            self.assertIs(signal.getsignal(signal.SIGALRM), signal.SIG_IGN)

    def test_a_handler_that_ticks_the_fleet(self):
        told = []
        with Fleet(text=RING, robots=[0, 8]) as fleet:
            def alarm(*_):
                told.append((fleet.tick(), fleet.arrivals))

            self.handler(signal.SIGALRM, alarm)
            begun, calls = time.monotonic(), 0
            while not told and time.monotonic() < begun + 30:
                calls += 1
                errand = fleet.go(0, 2 if fleet.cells[0] != 2 else 0)
                signal.setitimer(signal.ITIMER_REAL, 0.05)
                fleet.tick(20_000)
                self.assertEqual([one.number for one in fleet.arrivals], [errand.accepted()])
            self.assertEqual((told[0][1], fleet.look().tick), ([], 20_000 * calls + 1))

    def test_threads_take_turns(self):
        with Fleet(text=RING, robots=[0, 8]) as fleet:
            threads = [threading.Thread(target=lambda: [fleet.tick() for _ in range(200)]) for _ in range(4)]
            for thread in threads:
                thread.start()
            for _ in range(200):
                fleet.tick()
            for thread in threads:
                thread.join()
            self.assertEqual((fleet.look().tick, fleet.look().entries), (1000, 1000))

    def test_no_thread_is_started_without_a_time_limit(self):
        before = threading.active_count()
        with Fleet(text=RING, robots=[0, 8]) as fleet:
            fleet.tick()
            self.assertEqual(threading.active_count(), before)


class SameTest(unittest.TestCase):
    def test_the_same_orders_give_the_bytes_of_the_other_bindings(self):
        ring = "type octile\nheight 3\nwidth 4\nmap\n....\n.@..\n....\n"
        with Handle(ring, [0, 3, 8], clients=2, **opening.ENDLESS) as fleet:
            draw = 1
            for _ in range(200):
                draw = (draw * 1_103_515_245 + 12_345) % 2**32
                fleet.go((draw >> 17) & 3, (draw >> 19) % 12, client=(draw >> 16) & 1)
                fleet.tick()
                for client in range(2):
                    fleet.give_many(client)
            # What C++ makes of them, by tools/build_c
            same = os.environ.get("NASHIRUDDER_SAME")
            if same is not None:
                self.assertEqual(fleet.trace(), pathlib.Path(same).read_text())

    def test_the_same_state_and_orders_give_the_same_bytes(self):
        """For a second fleet, and for one that was saved and loaded."""
        import tempfile

        def play(fleet, draw):
            for _ in range(200):
                draw = (draw * 1_103_515_245 + 12_345) % 2**32
                fleet.go((draw >> 17) & 3, (draw >> 19) % 9, client=(draw >> 16) & 1)
                fleet.tick()

        def run(folder, seeds, **words):
            with Fleet(text=RING, robots=[0, 2, 8], clients=2, traces=folder, **words) as fleet:
                for seed in seeds:
                    play(fleet, seed)
                    if seed != seeds[-1]:
                        fleet.chapter()
            return {path.name: path.read_text() for path in pathlib.Path(folder).glob("chapter-*.json")}

        folders = [tempfile.TemporaryDirectory() for _ in range(3)]
        for folder in folders:
            self.addCleanup(folder.cleanup)
        one, other = run(folders[0].name, [1, 2]), run(folders[1].name, [1, 2])
        self.assertEqual((one, sorted(one)), (other, ["chapter-0.json", "chapter-1.json"]))
        run(folders[2].name, [1])
        self.assertEqual(run(folders[2].name, [2], resume=True), one)


if __name__ == "__main__":
    unittest.main()

"""What a fleet in this process does where a call does not go as it should. `tests/both` has what both classes do."""

import gc
import pathlib
import signal
import tempfile
import threading
import time
import unittest
import weakref

from nashirudder import Ended, FileFailed, Late
from nashirudder.library import Fleet

RING = "type octile\nheight 3\nwidth 3\nmap\n...\n.@.\n...\n"


class InProcessTest(unittest.TestCase):
    def setUp(self):
        folder = tempfile.TemporaryDirectory()
        self.addCleanup(folder.cleanup)
        self.path = pathlib.Path(folder.name)
        self.map = self.path / "ring.map"
        self.map.write_text(RING)

    def test_an_interrupted_call(self):
        def stop(*_):
            raise KeyboardInterrupt

        was = signal.signal(signal.SIGALRM, stop)
        self.addCleanup(signal.signal, signal.SIGALRM, was)
        with Fleet(self.map, [0, 8]) as fleet:
            done = stopped = 0
            for _ in range(40):
                signal.setitimer(signal.ITIMER_REAL, 0.0001 + 0.0005 * stopped % 0.01)
                least = 200
                try:
                    try:
                        fleet.tick(200)
                    finally:
                        signal.setitimer(signal.ITIMER_REAL, 0)
                except KeyboardInterrupt:
                    stopped, least = stopped + 1, 0
                # A call that is left stops between two ticks; no other one does.
                tick = fleet.look().tick
                self.assertTrue(least <= tick - done <= 200, tick - done)
                done = tick
            self.assertGreater(stopped, 0)
            errand = fleet.go(0, 1)
            fleet.tick(9)
            self.assertEqual(errand.arrived().tick, done + 1)

    def test_a_call_that_takes_long(self):
        fleet = Fleet(self.map, [0, 8], timeout=0.05)
        begun = threading.Event()

        def busy():
            begun.set()
            time.sleep(0.5)

        thread = threading.Thread(target=lambda: fleet._turns.make(busy, None))
        thread.start()
        begun.wait()
        for call in (fleet.look, lambda: fleet.go(0, 1), fleet.tick, fleet.chapter, lambda: fleet.shut(1)):
            with self.assertRaises(Late):
                call()
        with self.assertRaises(Late):
            fleet.close()
        thread.join()
        fleet._timeout = 10
        # What was asked was done in the end, and the fleet is closed.
        while fleet.status is None:
            time.sleep(0.01)
        self.assertEqual((fleet.status, fleet.cells), (0, [1, 8]))
        with self.assertRaises(Ended):
            fleet.look()

    def test_a_chapter_that_cannot_be_written_goes_on(self):
        folder = self.path / "traces"
        folder.mkdir()
        with Fleet(self.map, [0, 8], traces=folder) as fleet:
            fleet.tick()
            part = folder / "chapter-0.part"
            part.mkdir()
            with self.assertRaises(FileFailed):
                fleet.chapter()
            self.assertEqual((fleet.look().chapter, fleet.look().entries), (0, 1))
            part.rmdir()
            self.assertEqual(fleet.chapter().entries, 1)

    def test_an_order_that_stands_since_a_chapter_cannot_be_written(self):
        folder = self.path / "traces"
        folder.mkdir()
        with Fleet(self.map, [0, 8], traces=folder, chapter=1) as fleet:
            first = fleet.go(0, 2)
            part = folder / "chapter-0.part"
            part.mkdir()
            second = fleet.go(0, 1)
            self.assertEqual((first.state, second.state), ("accepted", "posted"))
            for call in (second.accepted, fleet.tick):
                with self.assertRaises(FileFailed):
                    call()
            part.rmdir()
            self.assertEqual((second.accepted(), fleet.tick()), (2, [1, 8]))

    def test_a_fleet_that_is_left(self):
        fleet = Fleet(self.map, [0, 8])
        fleet.tick()
        handle = weakref.ref(fleet._handle)
        del fleet
        gc.collect()
        self.assertIsNone(handle())

    def test_placements_are_the_callers_own(self):
        with Fleet(self.map, [0, 8]) as fleet:
            fleet.placement()[0] = 5
            fleet.cells[0] = 5
            self.assertEqual(fleet.cells, [0, 8])


if __name__ == "__main__":
    unittest.main()

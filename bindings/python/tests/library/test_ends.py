"""How a fleet in this process ends: dropped, interrupted, in a process that was forked."""

import copy
import gc
import os
import pathlib
import pickle
import signal
import tempfile
import threading
import unittest
import warnings

from nashirudder import Ended
from nashirudder.library import Fleet

RING = "type octile\nheight 3\nwidth 3\nmap\n...\n.@.\n...\n"


class EndsTest(unittest.TestCase):
    def setUp(self):
        folder = tempfile.TemporaryDirectory()
        self.addCleanup(folder.cleanup)
        self.path = pathlib.Path(folder.name)
        (self.path / "ring.map").write_text(RING)
        # A shell in the background has its programs ignore Ctrl-C.
        self.addCleanup(signal.signal, signal.SIGINT, signal.signal(signal.SIGINT, signal.default_int_handler))

    def fleet(self, **words):
        return Fleet(self.path / "ring.map", [0, 8], timeout=60, **words)

    def test_a_fleet_that_is_dropped_keeps_its_chapter(self):
        fleet = self.fleet(traces=self.path)
        fleet.tick()
        with warnings.catch_warnings(record=True) as told:
            warnings.simplefilter("always")
            del fleet
            gc.collect()
        self.assertEqual([one.category for one in told], [ResourceWarning])
        self.assertTrue((self.path / "chapter-0.json").exists())

    def test_in_a_forked_child_each_call_says_so(self):
        with self.fleet() as fleet:
            child = os.fork()
            if child == 0:
                told = 0
                for call in (fleet.tick, fleet.look, lambda: fleet.go(0, 1)):
                    try:
                        call()
                    except Ended:
                        told += 1
                fleet.close()
                os._exit(0 if told == 3 else 1)
            self.assertEqual(os.waitpid(child, 0)[1], 0)
            self.assertEqual(fleet.tick(), [0, 8])

    def test_an_interrupted_tick_stops_between_two_ticks(self):
        with self.fleet() as fleet:
            threading.Timer(0.5, os.kill, (os.getpid(), signal.SIGINT)).start()
            asked = 0
            with self.assertRaises(KeyboardInterrupt):
                # A quick library makes the most that one call may ask in less than half a second.
                while True:
                    asked += 1_000_000
                    fleet.tick(1_000_000)
            made = fleet.look().tick
            self.assertLess(made, asked)
            fleet.tick()
            self.assertEqual(fleet.look().tick, made + 1)

    def test_a_fleet_is_neither_copied_nor_pickled(self):
        with self.fleet() as fleet:
            for call in (copy.copy, copy.deepcopy, pickle.dumps):
                self.assertRaises(TypeError, call, fleet)


if __name__ == "__main__":
    unittest.main()

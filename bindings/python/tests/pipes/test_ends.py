"""How fleets over pipes end: dropped, interrupted, in processes that were forked. FLEET names the built program."""

import copy
import gc
import os
import pathlib
import pickle
import signal
import subprocess
import tempfile
import threading
import time
import unittest
import warnings

from nashirudder import Ended, Fleet, LiveFleet, finding

PROGRAM = finding.program(os.environ.get("FLEET"))
RING = "type octile\nheight 3\nwidth 3\nmap\n...\n.@.\n...\n"


class EndsTest(unittest.TestCase):
    def setUp(self):
        folder = tempfile.TemporaryDirectory()
        self.addCleanup(folder.cleanup)
        self.path = pathlib.Path(folder.name)
        (self.path / "ring.map").write_text(RING)
        # A shell in the background has its programs ignore Ctrl-C.
        self.addCleanup(signal.signal, signal.SIGINT, signal.signal(signal.SIGINT, signal.default_int_handler))

    def fleet(self, kind, **words):
        return kind(self.path / "ring.map", [0, 8], built=PROGRAM, timeout=60, **words)

    def child(self, work):
        """Forks a child that does this and ends with 0 if it returned True; returns its number."""
        with warnings.catch_warnings():
            warnings.simplefilter("ignore", DeprecationWarning)
            number = os.fork()
        if number == 0:
            try:
                os._exit(0 if work() else 1)
            except BaseException:
                os._exit(2)
        return number

    def test_a_fleet_that_is_dropped_ends_with_a_warning(self):
        for kind in (Fleet, LiveFleet):
            fleet = self.fleet(kind)
            process = fleet._program.process
            with warnings.catch_warnings(record=True) as told:
                warnings.simplefilter("always")
                del fleet
                gc.collect()
            self.assertEqual([one.category for one in told], [ResourceWarning], kind)
            self.assertEqual(process.wait(timeout=30), 0, kind)

    def test_a_fleet_that_was_closed_is_dropped_without_a_word(self):
        for kind in (Fleet, LiveFleet):
            with warnings.catch_warnings(record=True) as told:
                warnings.simplefilter("always")
                with self.fleet(kind):
                    pass
                gc.collect()
            self.assertEqual(told, [], kind)

    def test_close_does_not_wait_for_forked_children(self):
        for kind in (Fleet, LiveFleet):
            traces = self.path / kind.__name__
            traces.mkdir()
            fleet = self.fleet(kind, traces=traces)
            # The child holds a copy of each pipe.
            child = self.child(lambda: time.sleep(60) is None)
            try:
                fleet.tick()
                fleet.close(timeout=30)
                self.assertEqual((fleet.status, (traces / "chapter-0.json").exists()), (0, True), kind)
            finally:
                os.kill(child, signal.SIGKILL)
                os.waitpid(child, 0)

    def test_in_a_forked_child_each_call_says_so(self):
        for kind in (Fleet, LiveFleet):
            def is_told():
                for call in (fleet.tick, fleet.look, lambda: fleet.go(0, 1)):
                    try:
                        call()
                    except Ended:
                        continue
                    return False
                fleet.close()
                return fleet.status is None

            with self.fleet(kind) as fleet:
                self.assertEqual(os.waitpid(self.child(is_told), 0)[1], 0, kind)
                self.assertEqual(fleet.tick(), [0, 8])

    def test_an_interrupted_tick_stops_between_two_ticks(self):
        for kind in (Fleet, LiveFleet):
            with self.fleet(kind) as fleet:
                threading.Timer(0.5, os.kill, (os.getpid(), signal.SIGINT)).start()
                asked = 0
                with self.assertRaises(KeyboardInterrupt):
                    # A quick program makes the most that one call may ask in less than half a second.
                    while True:
                        asked += 1_000_000
                        fleet.tick(1_000_000)
                made = fleet.look().tick
                self.assertLess(made, asked, kind)
                # No further tick is made afterwards.
                self.assertEqual(fleet.tick(), [0, 8])
                self.assertEqual(fleet.look().tick, made + 1, kind)

    def test_a_fleet_is_neither_copied_nor_pickled(self):
        for kind in (Fleet, LiveFleet):
            with self.fleet(kind) as fleet:
                for call in (copy.copy, copy.deepcopy, pickle.dumps):
                    self.assertRaises(TypeError, call, fleet)

    def test_a_program_that_ends_lets_nobody_wait(self):
        process = subprocess.run(
            [os.sys.executable, "-c",
             "import sys, nashirudder; f = nashirudder.Fleet(sys.argv[1], [0], built=sys.argv[2]); f.tick(); print(f.cells)",
             str(self.path / "ring.map"), PROGRAM],
            capture_output=True, text=True, timeout=60, env={**os.environ, "PYTHONPATH": os.pathsep.join(os.sys.path)},
        )
        self.assertEqual((process.stdout, process.returncode), ("[0]\n", 0))


if __name__ == "__main__":
    unittest.main()

"""What Fleet and LiveFleet do where a call does not go as it should. FLEET names the built program."""

import os
import shutil
import signal
import tempfile
import threading
import time
import unittest

from nashirudder import Ended, FileFailed, Fleet, FleetError, Late, LiveFleet, Missing, OutOfRange, Refused, finding

PROGRAM = finding.program(os.environ.get("FLEET"))

RING = "type octile\nheight 3\nwidth 3\nmap\n...\n.@.\n...\n"

# No whole numbers, or ones that no fleet has; the last ones would be lines of their own.
WRONG = (-1, 2**32, 1.0, None, "08", "1\ntick", "0 1")


class OnRing(unittest.TestCase):
    """Fleets of two robots on a ring."""

    def setUp(self):
        self.folder = tempfile.TemporaryDirectory()
        self.addCleanup(self.folder.cleanup)
        self.map = os.path.join(self.folder.name, "ring.map")
        with open(self.map, "w") as file:
            file.write(RING)

    def fleet(self, kind=Fleet, **words):
        fleet = kind(self.map, robots=words.pop("robots", [0, 8]), built=PROGRAM, **words)
        self.addCleanup(lambda: fleet._program.is_closed or fleet._program.process.kill())
        return fleet


class CallsTest(OnRing):
    def test_numbers(self):
        for kind in (Fleet, LiveFleet):
            with self.fleet(kind, clients=2) as fleet:
                for number in WRONG:
                    for call in (lambda: fleet.go(number, 1), lambda: fleet.go(0, number), lambda: fleet.go(0, 1, client=number), lambda: fleet.close_client(number),
                                 lambda: fleet.shut(number), lambda: fleet.tick(number)):
                        with self.subTest(kind.__name__, number=number), self.assertRaises(OutOfRange):
                            call()
                with self.assertRaises(OutOfRange):
                    fleet.tick(0)
                look = fleet.look()
                self.assertEqual((look.tick, look.entries, look.cells), (0, 0, [0, 8]))
            for number in WRONG:
                for words in ({"robots": [number]}, {"clients": number}, {"queue": number}):
                    if words == {"queue": None}:
                        continue  # a limit that is not given
                    with self.subTest(kind.__name__, words=words), self.assertRaises(OutOfRange):
                        self.fleet(kind, **words)
            with self.assertRaises(TypeError):
                self.fleet(kind, speed=2)
            for words in ({"ties": "north"}, {"traces": ""}, {"clock": 2**64}):
                with self.subTest(kind.__name__, words=words), self.assertRaises(OutOfRange):
                    self.fleet(kind, **words)

    def test_no_program(self):
        for kind in (Fleet, LiveFleet):
            with self.assertRaises(Missing) as caught:
                kind(self.map, robots=[0], built=os.path.join(self.folder.name, "none"))
            self.assertIn("is not there: `tools/install --quick fleet`", str(caught.exception))
            # A file that is no program
            with self.assertRaises(Missing) as caught:
                kind(self.map, robots=[0], built=self.map)
            self.assertIn("cannot be started", str(caught.exception))

    def test_another_program(self):
        other = os.path.join(self.folder.name, "fleet")
        with open(other, "w") as file:
            file.write("#!/bin/sh\nread line; echo tick x: 1; echo @x look; exec sleep 60\n")
        os.chmod(other, 0o755)
        for kind in (Fleet, LiveFleet):
            with self.subTest(kind.__name__), self.assertRaises(Ended) as caught:
                kind(self.map, robots=[0], built=other)
            self.assertIn("no line of the protocol", str(caught.exception))

    def test_a_last_chapter_that_is_lost(self):
        for kind in (Fleet, LiveFleet):
            traces = os.path.join(self.folder.name, "traces")
            os.mkdir(traces)
            fleet = self.fleet(kind, traces=traces)
            fleet.tick(3)
            shutil.rmtree(traces)
            with self.assertRaises(FileFailed):
                fleet.close()
            self.assertEqual(fleet.status, 3)
            fleet.close()

    def test_what_happened_within_a_block_is_not_hidden(self):
        traces = os.path.join(self.folder.name, "traces")
        os.mkdir(traces)
        with self.assertRaises(KeyError):
            with self.fleet(traces=traces) as fleet:
                fleet.tick()
                shutil.rmtree(traces)
                raise KeyError("within")

    def test_a_look_on_a_map_with_bridges(self):
        # three cells in a line: the ends are not roomy for two robots, the middle is
        with open(self.map, "w", encoding="utf-8") as file:
            file.write("type octile\nheight 1\nwidth 3\nmap\n...\n")
        with self.fleet(robots=[0, 1]) as fleet:
            fleet.go(0, 1).accepted()
            look = fleet.look()
            # the longest queue times two robots times two edges
            self.assertEqual((look.eldest, look.within, look.blocked), (0, 4, None))
            fleet.tick(1)
            fleet.go(0, 0).accepted()
            self.assertIsNone(fleet.look().within)
        with self.fleet(robots=[0, 1, 2]) as fleet:
            fleet.go(0, 2).accepted()
            look = fleet.look()
            self.assertEqual((look.eldest, look.within, look.blocked), (0, None, 1))

    def test_an_order_that_stands_is_not_refused(self):
        with self.fleet(roll=False, chapter=2) as fleet:
            errands = [fleet.go(0, cell) for cell in (1, 2, 5)]
            self.assertEqual([errand.state for errand in errands], ["accepted", "accepted", "posted"])
            with self.assertRaises(Refused) as caught:
                errands[2].accepted()
            self.assertEqual(caught.exception.name, "chapter-full")
            fleet.chapter()
            self.assertEqual(errands[2].accepted(), 3)
            self.assertEqual(fleet.go(0, 0).accepted(), 4)

    def test_an_interrupted_call(self):
        def stop(*_):
            raise KeyboardInterrupt

        was = signal.signal(signal.SIGALRM, stop)
        self.addCleanup(signal.signal, signal.SIGALRM, was)
        with self.fleet() as fleet:
            done = stopped = 0
            for _ in range(40):
                signal.setitimer(signal.ITIMER_REAL, 0.0001 + 0.0005 * stopped % 0.01)
                try:
                    try:
                        fleet.tick(200)
                    finally:
                        # The alarm may also come after the call: it is stopped where its exception is caught.
                        signal.setitimer(signal.ITIMER_REAL, 0)
                except KeyboardInterrupt:
                    stopped += 1
                # Each call is made whole or not at all, and the next one has its own answer.
                tick = fleet.look().tick
                self.assertIn(tick - done, (0, 200))
                done = tick
            self.assertGreater(stopped, 0)
            errand = fleet.go(0, 1)
            fleet.tick(done + 9)
            self.assertEqual(errand.arrived().tick, done + 1)
        self.assertEqual(fleet.status, 0)

    def test_a_terminal_stops_python_alone(self):
        for kind in (Fleet, LiveFleet):
            with self.fleet(kind) as fleet:
                self.assertNotEqual(os.getpgid(fleet._program.process.pid), os.getpgid(0))

    def test_a_program_that_does_not_answer(self):
        for kind in (Fleet, LiveFleet):
            with self.fleet(kind, timeout=0.3) as fleet:
                fleet._program.process.send_signal(signal.SIGSTOP)
                for call in (fleet.look, lambda: fleet.go(0, 1), fleet.tick, lambda: fleet.shut(1), fleet.chapter):
                    with self.assertRaises(Late):
                        call()
                fleet._program.process.send_signal(signal.SIGCONT)
                fleet._timeout = fleet._program.timeout = 10
                # What was asked is done all the same, and each answer is the call's own.
                self.assertEqual((fleet.look().tick, fleet.tick()[0]), (1, 1))
            stopped = self.fleet(kind)
            stopped._program.process.send_signal(signal.SIGSTOP)
            with self.assertRaises(Late):
                stopped.close(timeout=0.2)

    def test_threads(self):
        with self.fleet(clients=4) as fleet:
            failed = []

            def work(client):
                try:
                    for _ in range(25):
                        fleet.go(client % 2, client, client=client).accepted()
                        fleet.tick()
                        fleet.look()
                except FleetError as error:
                    # The queue of a robot may be full; anything else is a fault.
                    if not isinstance(error, Refused) or error.name not in ("queue-full", "blocked"):
                        failed.append(error)

            threads = [threading.Thread(target=work, args=(client,)) for client in range(4)]
            for thread in threads:
                thread.start()
            for thread in threads:
                thread.join(60)
            self.assertEqual((failed, [thread.is_alive() for thread in threads]), ([], [False] * 4))

    def test_withdrawn_errands_end(self):
        with self.fleet(queue=100) as fleet:
            fleet.go(0, 2)
            for _ in range(50):
                errand = fleet.go(0, 1)
                fleet.withdraw(errand)
                self.assertEqual(errand.state, "withdrawn")
            self.assertEqual(len(fleet._ledger), 1)
        with self.fleet(LiveFleet, clients=2) as fleet:
            first, second = fleet.go(0, 2), fleet.go(0, 1)
            fleet.withdraw(second, timeout=10)
            with self.assertRaises(Refused) as caught:
                second.arrived(timeout=10)
            self.assertEqual((caught.exception.name, first.state, second.state), ("withdrawn", "accepted", "withdrawn"))
            fleet.close_client(1, timeout=10)
            with self.assertRaises(Refused):
                fleet.go(1, 1, client=1)
            self.assertEqual(fleet.cells, [0, 8])


class OnTickTest(OnRing):
    """`on_tick` may call the fleet, and may fail."""

    def test_a_callback_that_calls(self):
        seen, begun = [], threading.Event()

        def look(tick, _cells):
            # The first tick may be told before `fleet` has its value.
            begun.wait(10)
            seen.append((tick, fleet.look().tick))

        with self.fleet(LiveFleet, period_ms=2, on_tick=look) as fleet:
            begun.set()
            errand = fleet.go(0, 2)
            self.assertEqual(errand.arrived(10).cell, 2)
            while len(seen) < 5:
                time.sleep(0.01)
        self.assertTrue(all(told <= looked for told, looked in seen))

    def test_a_callback_that_fails(self):
        failures = []
        was, threading.excepthook = threading.excepthook, lambda told: failures.append(told.exc_value)
        self.addCleanup(setattr, threading, "excepthook", was)

        def fail(tick, _cells):
            raise KeyError(tick)

        with self.fleet(LiveFleet, period_ms=2, on_tick=fail) as fleet:
            self.assertEqual(fleet.go(0, 2).arrived(10).cell, 2)
            while len(failures) < 3:
                time.sleep(0.01)
        self.assertEqual([type(failure) for failure in failures[:3]], [KeyError] * 3)


if __name__ == "__main__":
    unittest.main()

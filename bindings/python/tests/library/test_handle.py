"""Tests of Handle, and of what is asked of a map alone, against the library. What is wanted is worked out by hand."""

import copy
import ctypes
import json
import threading
import unittest

from nashirudder import OpenErrand, OutOfRange, Refused, Standing, calls, names, opening
from nashirudder.library import FAR, Account, Handle, Notice, check_step, distances, first_bridge, judge
from nashirudder.names import Code

try:
    import numpy
except ImportError:
    numpy = None

RING = "type octile\nheight 3\nwidth 4\nmap\n....\n.@..\n....\n"
ROW = "type octile\nheight 1\nwidth 3\nmap\n...\n"


# Numbers that no fleet has: negative ones, those that are small again when they are cut to 32, 16 or 8 bits, and what
# is no whole number.
WRONG = (-1, 2**32, 2**32 + 2, 2**64 + 2, 2**200, 1.0, "2", None)


class Numbers(unittest.TestCase):
    """No number is cut to fit: each call refuses it, and changes nothing."""

    def test_calls(self):
        fleet = Handle(RING, robots=[0, 3], clients=2)
        calls = {
            "go": (lambda n: fleet.go(n, 1), lambda n: fleet.go(0, n), lambda n: fleet.go(0, 1, client=n)),
            "close_client": (fleet.close_client,),
            "withdraw": (lambda n: fleet.withdraw(1, client=n),),
            "shut": (fleet.shut,),
            "give": (fleet.give,),
            "pending_count": (fleet.pending_count,),
            "widen": (lambda n: fleet.widen(1, client=n),),
            "wait_of": (fleet.wait_of,),
            "queue": (fleet.queue,),
            "open_errands": (fleet.open_errands,),
            "account_of": (fleet.account_of,),
        }
        for name, ways in calls.items():
            for way in ways:
                for number in WRONG:
                    with self.subTest(name, number=number), self.assertRaises(OutOfRange):
                        way(number)
        for way in (lambda n: fleet.withdraw(n), lambda n: fleet.widen(n), fleet.keep):
            for number in (-1, 2**64, 2**64 + 1, 0.5):
                with self.assertRaises(OutOfRange):
                    way(number)
        self.assertEqual((list(fleet.placement()), fleet.clock(), fleet.is_idle()), ([0, 3], 0, True))
        self.assertEqual((fleet.pending_count(), fleet.pending_count(1)), (0, 0))

    def test_openings(self):
        for number in WRONG:
            for robots in ([number], [0, number], [(number, (0, 0, 0, 0))], [(0, (number, 0, 0, 0))]):
                with self.subTest(robots=robots), self.assertRaises(OutOfRange):
                    Handle(RING, robots=robots)
            for words in ({"clients": number}, {"queue": number}, {"mailbox": number}, {"chapter": number}):
                if number is None and "clients" not in words:
                    continue  # a limit that is not given
                with self.subTest(words=words), self.assertRaises(OutOfRange):
                    Handle(RING, robots=[0], **words)
        for robots in ([(0, (256, 0, 0, 0))], [(0, (0, 0, 0))], [(0, (0, 0, 0, 0, 0))]):
            with self.assertRaises(OutOfRange):
                Handle(RING, robots=robots)
        for name in ("life", "orders", "clock"):
            with self.assertRaises(OutOfRange):
                Handle(RING, robots=[0], **{name: 2**64 + 5})

    def test_maps(self):
        for number in WRONG:
            steps = lambda n: check_step(RING, [0, n], [1, 2]), lambda n: check_step(RING, [0, 3], [1, n])
            for way in (*steps, lambda n: distances(RING, n)):
                with self.subTest(number=number), self.assertRaises(OutOfRange):
                    way(number)


class Calls(unittest.TestCase):
    def refused(self, name, call, numbers=()):
        with self.assertRaises(Refused) as caught:
            call()
        self.assertEqual((caught.exception.name, caught.exception.numbers), (name, numbers))

    def test_run(self):
        with Handle(ROW, robots=[0]) as fleet:
            judged = fleet.go(0, 2)
            self.assertEqual((judged.verdict, judged.number), ("accepted", 1))
            self.assertEqual(fleet.wait_of(0), 0)
            self.assertEqual([fleet.tick().arrived for _ in range(2)], [0, 1])
            self.assertEqual((list(fleet.placement()), fleet.clock(), fleet.pending_count()), ([2], 2, 2))
            self.assertIs(fleet.is_idle(), True)
            self.assertEqual(fleet.give(), Notice(1, 1, "accepted", 1))
            self.assertEqual(fleet.give(), Notice(2, None, None, 1, 0, 2, 2, 0))
            self.assertIsNone(fleet.give())
            self.assertIsNone(fleet.eldest())
            self.assertIsNone(fleet.wait_of(0))
        self.refused("not-open", fleet.tick)

    def test_opening(self):
        self.refused("map-header", lambda: Handle("", robots=[0]), (1, 0))
        self.refused("map-cell", lambda: Handle(ROW.replace("...", "..x"), robots=[0]), (0, 2))
        self.refused("robot-count", lambda: Handle(ROW, robots=[]), (0, 0))
        self.refused("start-blocked", lambda: Handle(RING, robots=[0, 5]), (1, 0))
        self.refused("start-shared", lambda: Handle(RING, robots=[3, 0, 3]), (0, 2))
        self.refused("bad-setup", lambda: Handle(ROW, robots=[0], queue=0), (0, 0))
        with self.assertRaises(TypeError):
            Handle(ROW, robots=[0], speed=2)

    def test_sentences(self):
        calls.load()
        for code in Code:
            if code.word in names.SENTENCES:
                told = calls.message_of(code, (3, 2**64 - 1))
                self.assertEqual(names.sentence_of(code.word, (3, 2**64 - 1)), told, code)
        with self.assertRaises(Refused) as caught:
            Handle(RING, robots=[0, 5])
        self.assertEqual(str(caught.exception), "start-blocked: robot 1 starts on a cell that is no floor")

    def test_errands(self):
        fleet = Handle(RING, robots=[0, 3], clients=2)
        fleet.go(0, 11), fleet.go(0, 8, client=1), fleet.go(1, 3)
        first, second, third = OpenErrand(0, 1, 0, 11, 1), OpenErrand(1, 1, 0, 8, 2), OpenErrand(0, 2, 1, 3, 1)
        self.assertEqual((fleet.queue(0), fleet.queue(1)), ([first, second], [third]))
        self.assertEqual((fleet.open_errands(), fleet.open_errands(1)), ([first, third], [second]))
        fleet.tick()
        fleet.shut(0)
        self.assertEqual(fleet.standings(), [Standing("shut", 1, 11, 2, 1), Standing("free", 3, None, 0, None)])
        self.refused("no-robot", lambda: fleet.queue(2))
        self.refused("no-client", lambda: fleet.open_errands(2))

    def test_orders(self):
        fleet = Handle(RING, robots=[0, (3, (0, 0, 0, 0))], clients=2, queue=2)
        self.assertEqual(fleet.go(9, 1).verdict, "no-robot")
        self.assertEqual(fleet.go(0, 99).verdict, "no-cell")
        self.assertEqual(fleet.go(0, 5).verdict, "blocked")
        self.assertEqual([fleet.go(0, cell).number for cell in (11, 1)], [1, 2])
        self.assertEqual(fleet.go(0, 1).verdict, "queue-full")
        self.assertEqual(fleet.withdraw(1).verdict, "too-late")
        self.assertEqual(fleet.withdraw(2).verdict, "withdrawn")
        self.assertEqual(fleet.eldest(), 0)
        self.assertIs(fleet.shut(1), True)
        self.assertEqual(fleet.go(1, 0, client=1).verdict, "robot-shut")
        self.assertEqual(fleet.close_client(1).verdict, "closed")
        self.assertEqual(fleet.go(0, 1, client=1).verdict, "client-closed")
        self.refused("no-client", lambda: fleet.go(0, 1, client=2))
        self.refused("already-shut", lambda: fleet.shut(1))
        self.refused("no-robot", lambda: fleet.shut(2))
        self.refused("too-wide", lambda: fleet.widen(1 << 60))

    def test_bounds(self):
        self.assertIs(Handle(RING, robots=[0]).is_bridgeless(), True)
        self.assertEqual(Handle(RING, robots=[0]).idle_within(), 0)
        self.assertIsNone(Handle(ROW, robots=[0]).idle_within())

    def test_chapters(self):
        fleet = Handle(ROW, robots=[0], chapters=2)
        fleet.go(0, 2)
        fleet.tick()
        fleet.tick()
        trace = json.loads(fleet.trace())
        self.assertEqual([entry[0] for entry in trace["entries"]], ["take", "tick", "tick"])
        fleet.next_chapter()
        self.assertEqual(json.loads(fleet.trace())["chapter"], 1)
        self.refused("book-spent", fleet.next_chapter)
        fleet.keep(0)

    def test_chapters_that_are_handed_out(self):
        fleet = Handle(RING, robots=[0], chapters=2)
        fleet.go(0, 8)
        fleet.tick()
        wanted = fleet.trace()
        with fleet.hand_out() as ended:
            fleet.tick()
            self.assertEqual((ended.trace(), json.loads(fleet.trace())["chapter"]), (wanted, 1))
            self.refused("book-spent", fleet.hand_out)
            for make in (copy.copy, copy.deepcopy):
                with self.assertRaises(TypeError):
                    make(ended)
        self.refused("not-open", ended.trace)
        judge(RING, wanted)
        self.refused("chapter-illegal", lambda: judge(ROW, wanted), (1, 3))
        self.refused("trace-shape", lambda: judge(ROW, "{}"), (0, 0))
        self.refused("map-header", lambda: judge("", "{}"), (1, 0))

    def test_goes_on_with_the_limits_of_the_chapter(self):
        first = Handle(RING, robots=[0, 3], queue=3, life=2**40)
        first.go(0, 11)
        first.tick()
        with Handle.reopen(RING, first.trace()) as fleet:
            limits = fleet.limits()
            self.assertEqual((limits["queue"], limits["life"], fleet.clock()), (3, 2**40, 1))
        with self.assertRaises(Refused) as refused:
            Handle.reopen(RING, first.trace(), queue=4)
        self.assertEqual(refused.exception.name, "limits-differ")
        self.assertIn("the chapter has `queue` 3 and `life` 1099511627776", str(refused.exception))

    def test_the_library_sees_to_nulls_itself(self):
        # By another way than the header: nothing stands before the library here.
        library, fleet, setup = calls.load(), calls.CFleet(), calls.CSetup()
        number, text = ctypes.c_uint64(7), RING.encode()
        self.assertEqual(library.nashirudder_clock(None, ctypes.byref(number)), Code.NULL_POINTER)
        self.assertEqual(library.nashirudder_clock(ctypes.byref(fleet), None), Code.NULL_POINTER)
        self.assertEqual(library.nashirudder_open(text, len(text), None, 0, None, ctypes.byref(fleet), None), Code.NULL_POINTER)
        self.assertEqual(library.nashirudder_open(None, 4, None, 0, ctypes.byref(setup), ctypes.byref(fleet), None), Code.NULL_POINTER)
        library.nashirudder_setup_default(1, ctypes.byref(setup))
        self.assertEqual((setup.mailbox, setup.lane, setup.outlet, setup.queue), (0, 0, 0, 16))
        robot = calls.CRobot(0)
        opened = library.nashirudder_open(text, len(text), ctypes.byref(robot), 1, ctypes.byref(setup), ctypes.byref(fleet), None)
        self.assertEqual((opened, library.nashirudder_tick(ctypes.byref(fleet), None)), (Code.DONE, Code.DONE))
        library.nashirudder_close(None)
        library.nashirudder_close(ctypes.byref(fleet))
        library.nashirudder_setup_default(1, None)
        self.assertEqual(number.value, 7)

    def test_a_class_below_keeps_its_name(self):
        class Mine(Handle):
            pass

        with Mine(RING, robots=[0]) as fleet:
            self.assertIs(type(fleet), Mine)

    def test_accounts(self):
        fleet = Handle(RING, robots=[0], clients=2)
        fleet.go(0, 2, client=1)
        self.assertEqual((fleet.account_of(), fleet.account_of(1)), (Account(0, 0, 0, 64), Account(1, 1, 1, 64)))
        self.refused("no-client", lambda: fleet.account_of(2))

    def test_endless_limits(self):
        setup = calls.CSetup()
        calls.load().nashirudder_setup_endless(3, ctypes.byref(setup))
        self.assertEqual({name: getattr(setup, name) for name in opening.ENDLESS}, opening.ENDLESS)
        self.assertEqual((setup.clients, setup.queue), (3, 16))

    def test_is_not_copied(self):
        fleet = Handle(ROW, robots=[0])
        for make in (copy.copy, copy.deepcopy):
            with self.assertRaises(TypeError):
                make(fleet)

    def test_maps(self):
        self.assertEqual(first_bridge(ROW), (0, 1))
        self.assertIsNone(first_bridge(RING))
        self.refused("map-header", lambda: first_bridge(""), (1, 0))
        self.assertEqual(list(distances(ROW.replace("...", ".@."), 0)), [0, FAR, FAR])
        self.assertEqual(list(distances(RING, 4)), [1, 2, 3, 4, 0, FAR, 4, 5, 1, 2, 3, 4])
        self.assertEqual(list(distances(RING.replace("\n", "\r\n"), 4)), [1, 2, 3, 4, 0, FAR, 4, 5, 1, 2, 3, 4])
        for goal in (5, 12):
            self.refused("goal-blocked", lambda: distances(RING, goal))
        for head, line in (("", 1), ("type octile\n", 2), ("type octile\nheight 3\nwidth\n", 3)):
            self.refused("map-header", lambda: distances(head, 0), (line, 0))
        self.refused("map-size", lambda: distances(RING.replace("height 3", "height 1025"), 0), (0, 0))
        check_step(RING, [0, 3], [1, 2])
        check_step(RING, [0, 1], [1, 2])
        self.refused("swapping-conflict", lambda: check_step(RING, [0, 1], [1, 0]), (0, 1))
        self.refused("vertex-conflict", lambda: check_step(RING, [1, 3], [2, 2]), (0, 1))
        self.refused("not-adjacent", lambda: check_step(RING, [3, 0], [7, 2]), (1, 0))
        self.refused("off-floor", lambda: check_step(RING, [4, 0], [5, 0]), (0, 0))
        self.refused("to-length", lambda: check_step(RING, [0, 1], [0]), (0, 0))
        self.refused("from-blocked", lambda: check_step(RING, [0, 5], [0, 1]), (1, 0))
        self.refused("from-shared", lambda: check_step(RING, [0, 0], [0, 1]), (0, 1))
        self.refused("too-many", lambda: check_step(ROW, [0, 1, 2, 0], [0, 1, 2, 0]), (0, 0))

    def test_threads(self):
        fleet, failed = Handle(RING, robots=[0, 3], clients=4, queue=1000, mailbox=1000), []

        def work(client):
            try:
                for _ in range(200):
                    fleet.go(client % 2, 0, client)
                    fleet.clock(), fleet.placement(), fleet.eldest()
            except Exception as error:
                failed.append(error)

        threads = [threading.Thread(target=work, args=(client,)) for client in range(4)]
        for thread in threads:
            thread.start()
        for thread in threads:
            thread.join(60)
        self.assertEqual((failed, [fleet.pending_count(client) for client in range(4)]), ([], [200] * 4))


@unittest.skipIf(numpy is None, "NumPy is not there")
class Arrays(unittest.TestCase):
    """With NumPy, placements and distances are arrays, and steps may be."""

    def test_what_comes_back(self):
        placement, away = Handle(RING, robots=[0, 3]).placement(), distances(ROW.replace("...", ".@."), 0)
        for array, wanted in ((placement, [0, 3]), (away, [0, FAR, FAR])):
            self.assertEqual((type(array), array.dtype, array.shape), (numpy.ndarray, numpy.uint32, (len(wanted),)))
            self.assertEqual(array.tolist(), wanted)
            array[0] = 1  # it is the caller's own

    def test_steps(self):
        for kind in ("uint32", "int64", "uint8", ">i4"):
            check_step(RING, numpy.array([0, 3], kind), numpy.array([1, 2], kind))
            with self.assertRaises(Refused):
                check_step(RING, numpy.array([0, 1], kind), numpy.array([1, 0], kind))
        check_step(RING, numpy.array([0, 9, 3, 9], "uint32")[::2], [1, 2])
        for wrong in ([0, 2**32 + 3], [0, -1], [0.0, 3.0], [[0, 3]]):
            cells = numpy.array(wrong)
            with self.subTest(cells=cells), self.assertRaises(OutOfRange):
                check_step(RING, cells, [1, 2])


if __name__ == "__main__":
    unittest.main()

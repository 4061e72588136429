"""Tests of the execution of plans. What is wanted is worked out by hand."""

import copy
import unittest

from nashirudder import OutOfRange, Refused
from nashirudder.execution import Move, Progress, Whereabouts
from nashirudder.library import Execution


class ExecutionTest(unittest.TestCase):
    def refused(self, name, call):
        with self.assertRaises(Refused) as caught:
            call()
        self.assertEqual((caught.exception.name, caught.exception.numbers), (name, ()))

    def test_openings(self):
        self.refused("bad-window", lambda: Execution(4, [1, 1], ahead=0))
        self.refused("no-placement", lambda: Execution(4, [1, 1]))
        self.refused("no-placement", lambda: Execution(4, [0, 4], "started"))
        for wrong in (lambda: Execution(4, [0], "begun"), lambda: Execution(-1, []), lambda: Execution(4, [0.5]), lambda: Execution(4, [0], ahead=2**32)):
            with self.assertRaises(OutOfRange):
                wrong()

    def test_corridor(self):
        # The second robot is behind the first.
        with Execution(cells=4, placement=[0, 1], ahead=2) as run:
            self.assertEqual((run.begin(), run.reached(0), run.whereabouts(2)), (None, None, None))
            run.plan([1, 2])
            run.plan([2, 3])
            self.refused("window-full", lambda: run.plan([3, 2]))
            self.assertEqual(run.begin(), Move(robot=1, start=1, to=2, tick=1))
            self.assertIsNone(run.begin())
            self.assertEqual(run.whereabouts(1), Whereabouts(cell=1, bound_for=2, left=1))
            self.assertEqual(run.whereabouts(0), Whereabouts(cell=0, bound_for=None, left=2))
            self.assertEqual(run.progress(), Progress(steps=2, behind=2, has_room=False))
            self.assertEqual(run.reached(1), Move(robot=1, start=1, to=2, tick=1))
            self.assertIsNone(run.reached(1))
            began = sorted((move.robot, move.start, move.to, move.tick) for move in iter(run.begin, None))
            self.assertEqual(began, [(0, 0, 1, 1), (1, 2, 3, 2)])
            run.reached(0)
            self.assertTrue(run.has_room)
            self.refused("no-step", lambda: run.plan([3, 2]))
            self.refused("no-step", lambda: run.plan([3]))
        for call in (run.begin, run.progress, lambda: run.reached(0), lambda: run.whereabouts(0), lambda: run.plan([2, 3])):
            self.refused("not-open", call)
        run.close()

    def test_started(self):
        run = Execution(4, [0, 1], "started")
        run.plan([1, 2])
        self.assertEqual({run.begin().robot, run.begin().robot}, {0, 1})
        self.assertIsNone(run.begin())

    def test_cycle(self):
        # Four robots on a block of four cells turn, and begin together.
        run = Execution(4, [0, 1, 3, 2])
        run.plan([1, 3, 2, 0])
        self.assertEqual(sorted(move.robot for move in iter(run.begin, None)), [0, 1, 2, 3])

    def test_is_not_copied(self):
        with self.assertRaises(TypeError):
            copy.copy(Execution(1, [0]))


if __name__ == "__main__":
    unittest.main()

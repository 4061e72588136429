"""The plan's log: how vehicles that stand anywhere on their ways come to where the plan has their robots."""

import random
import unittest

from kit import Case
from nashirudder_gateway.plan_log import Placement, PlanLog
from nashirudder_gateway.site import BadSite


def is_step(before, after):
    """Whether robots may step from these cells to those, by the conflicts of the field alone."""
    there = dict(zip(before, after))
    return len(set(after)) == len(after) and not any(there.get(to) == at and to != at for at, to in zip(before, after))


class Log(Case):
    def log(self):
        log = PlanLog(str(self.folder / "plan.db"))
        self.addCleanup(log.close)
        return log

    def test_a_log_begins_and_is_read_again(self):
        log = self.log()
        self.assertEqual(log.begin(7, [0, 3]), Placement(7, [0, 3], [0, 0]))
        log.add(log.placements[-1].then(8, [1, 3]))
        log.add(log.placements[-1].then(9, [2, 3]))
        again = self.log()
        self.assertEqual(again.placements, [Placement(7, [0, 3], [0, 0]), Placement(8, [1, 3], [2, 0]), Placement(9, [2, 3], [4, 0])])
        self.assertEqual(again.order_id, log.order_id)

    def test_what_is_reached_goes(self):
        log = self.log()
        log.begin(0, [0, 3])
        for tick, cells in enumerate(([1, 3], [2, 4], [8, 4]), 1):
            log.add(log.placements[-1].then(tick, cells))
        log.remove_before([2, 2])
        self.assertEqual([it.tick for it in log.placements], [1, 2, 3])
        log.remove_before([4, 0])
        self.assertEqual([it.tick for it in log.placements], [1, 2, 3])
        log.remove_before([4, 2])
        self.assertEqual([it.tick for it in self.log().placements], [2, 3])

    def test_the_fleet_may_be_one_step_ahead_of_the_log(self):
        log = self.log()
        log.begin(0, [0, 3])
        self.assertEqual(log.begin(1, [1, 3]), Placement(1, [1, 3], [2, 0]))
        self.assertEqual(self.log().placements, [Placement(0, [0, 3], [0, 0]), Placement(1, [1, 3], [2, 0])])

    def test_a_fleet_that_is_behind_the_log_is_refused(self):
        log = self.log()
        log.begin(0, [0, 3])
        log.add(log.placements[-1].then(1, [1, 3]))
        with self.assertRaises(BadSite) as caught:
            log.begin(0, [0, 3])
        self.assertIn("the vehicles' plan goes to tick 1, and the fleet to 0", str(caught.exception))

    def test_the_log_of_another_fleet_begins_anew(self):
        log = self.log()
        log.begin(0, [0, 3])
        before = log.order_id
        self.assertEqual(log.begin(5, [6, 3]), Placement(5, [6, 3], [0, 0]))
        self.assertNotEqual(log.order_id, before)

    def test_on_to_the_last_placement(self):
        # robot 0 has made two of its moves, robot 1 none
        log = self.log()
        log.begin(0, [0, 9])
        for tick, cells in enumerate(([1, 8], [2, 8], [3, 7]), 1):
            log.add(log.placements[-1].then(tick, cells))
        self.assertEqual(log.way_from([4, 0]), [[2, 9], [2, 8], [3, 7]])
        self.assertEqual(log.way_from([6, 4]), [[3, 7]])
        self.assertIsNone(log.way_from([8, 0]))

    def test_each_way_is_free_of_conflicts(self):
        """Random walks on a ring and a line, executed by the rule of visits in random order, stopped at random."""
        for seed in range(400):
            chance = random.Random(seed)
            cells = list(range(0, 10, 2))
            plan = [cells]
            for _ in range(8):
                turn = chance.choice((1, -1, 0))
                wish = [(at + (turn if chance.random() < 0.8 else 0)) % 12 for at in plan[-1]]
                plan.append(wish if is_step(plan[-1], wish) else plan[-1])
            log = PlanLog(":memory:")
            log.begin(0, plan[0])
            for tick, cells in enumerate(plan[1:], 1):
                log.add(log.placements[-1].then(tick, cells))
            reached = self.run_for_a_while(log.placements, chance)
            way = log.way_from(reached)
            for before, after in zip(way, way[1:]):
                self.assertTrue(is_step(before, after), (seed, before, after))
            self.assertEqual(way[-1], plan[-1])
            log.close()

    @staticmethod
    def run_for_a_while(placements, chance):
        """Each robot's progress after random moves, each made once those that the plan sends to its cell before have left it."""
        done = [0] * len(placements[0].cells)
        moves = [(tick, robot, before.cells[robot], after.cells[robot], after.sequences[robot]) for tick, (before, after) in
                 enumerate(zip(placements, placements[1:])) for robot in range(len(done)) if after.cells[robot] != before.cells[robot]]
        for _ in range(chance.randrange(60)):
            tick, robot, _, to, sequence = chance.choice(moves) if moves else (0, 0, 0, 0, 0)
            if moves and done[robot] == sequence - 2 and all(
                    done[other] >= number for at, other, start, _, number in moves if start == to and at < tick and other != robot):
                # whoever leaves that cell in the same step has to have left it too
                if all(done[other] >= number for at, other, start, _, number in moves if start == to and at == tick):
                    done[robot] = sequence
        return done


if __name__ == "__main__":
    unittest.main()

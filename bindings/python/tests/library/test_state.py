"""The state of a fleet as a value: kept, gone back to, changed, and gone on from."""

import unittest

from nashirudder import OutOfRange, Refused
from nashirudder.library import Handle, Map, Opening, OpeningRobot, judge

RING = "type octile\nheight 3\nwidth 4\nmap\n....\n.@..\n....\n"
# In its dead end of three cells two robots block one another, but where they take turns.
STUB = "type octile\nheight 3\nwidth 6\nmap\n...@@@\n......\n...@@@\n"
WALL = RING.replace(".@..", ".@@.")


def play(fleet, ticks=30):
    for tick in range(ticks):
        fleet.go(tick % 2, (7 * tick) % 12)
        fleet.tick()
        fleet.give_many()
    return fleet.trace()


class StateTest(unittest.TestCase):
    def setUp(self):
        self.fleet = Handle(RING, [0, 3], queue=5)
        self.addCleanup(self.fleet.close)
        for robot, cell in ((0, 11), (0, 2), (1, 8)):
            self.fleet.go(robot, cell)
        self.fleet.tick()
        self.fleet.next_chapter()
        self.state = self.fleet.opening()

    def refused(self, map, sentence):
        with self.assertRaises(Refused) as refused:
            Handle.reopen(map, self.state.trace())
        self.assertEqual(refused.exception.name, "chapter-illegal")
        self.assertIn(sentence, str(refused.exception))

    def test_going_back(self):
        self.assertEqual(Opening.of(self.state.trace()), self.state)
        self.assertEqual(self.state.trace(), self.fleet.trace())
        self.fleet.next_chapter()
        onwards = play(self.fleet)
        # A fleet that goes on from the state has the same number of chapter, orders and ticks, and the same bytes.
        with Handle.reopen(RING, self.state.trace()) as again:
            self.assertEqual(play(again), onwards)
        judge(RING, onwards)

    def test_changes(self):
        state = self.state
        self.assertEqual(([one.cell for one in state.robots], state.tick, state.queue, state.chapter), ([1, 7], 1, 5, 1))
        self.assertEqual([(one.client, one.number, one.cell) for one in state.robots[0].errands], [(0, 1, 11), (0, 2, 2)])
        self.assertEqual((state.robots[0].wait, state.cancel(0).number, state.robots[0].wait), (1, 1, 0))
        state.move(1, 4)
        self.assertEqual((state.robots[1].cell, state.robots[1].wait), (4, 0))
        last = Opening.of(state.trace())
        self.assertEqual((last.cancel(1).cell, last.robots[1].wait), (8, None))
        state.robots.append(OpeningRobot(cell=10))
        with Handle.reopen(RING, state.trace()) as fleet:
            self.assertEqual((list(fleet.placement()), fleet.clock(), fleet.robots()), ([1, 4, 10], 1, 3))
            self.assertEqual([one.cell for one in fleet.queue(0)], [2])
            self.assertEqual((fleet.go(2, 9).number, fleet.limits()["queue"]), (4, 5))
        del state.robots[0]
        with Handle.reopen(RING, state.trace()) as fleet:
            self.assertEqual((list(fleet.placement()), fleet.is_idle()), ([4, 10], False))

    def test_going_on(self):
        fleet = Handle(RING, [(0, (1, 2, 3, 4)), (3, (4, 3, 2, 1))], chapter=7, mailbox=5)
        ranks = [(1, 2, 3, 4), (4, 3, 2, 1)]
        fleet.keep(0)
        fleet.go(0, 11)
        fleet.next_chapter()
        before = fleet.opening()
        for _ in range(2):
            for _ in range(5):
                fleet.tick()
            self.assertEqual((list(fleet.placement())[0], fleet.clock(), len(fleet.give_many())), (11, 5, 1 if fleet.opening().chapter > 1 else 2))
            fleet.go_on(RING, before, ranks)
            self.assertEqual((fleet.clock(), fleet.opening().chapter, fleet.limits()["chapter"], fleet.limits()["mailbox"]), (0, 2, 7, 5))
        # What a map does not suit is refused, and nothing changes.
        now = fleet.trace()
        before.robots.append(OpeningRobot(cell=6))
        for map, four, name in ((WALL, None, "chapter-illegal"), (RING, ranks, "laws-differ")):
            with self.assertRaises(Refused) as refused:
                fleet.go_on(map, before, four)
            self.assertEqual((refused.exception.name, fleet.trace(), fleet.robots()), (name, now, 2))
        before.queue = 3
        fleet.go_on(RING, before)
        self.assertEqual((list(fleet.placement())[2], fleet.robots(), fleet.limits()["queue"], len(fleet.standings())), (6, 3, 3, 3))
        before.queue = 2**40
        self.assertRaises(OutOfRange, fleet.go_on, RING, before)
        fleet.close()
        self.assertRaises(Refused, fleet.go_on, RING, self.state)

    def test_going_on_roomy_and_in_turns(self):
        with Handle(STUB, [8, 11], roomy=True) as roomy:
            roomy.go_on(STUB, roomy.opening())
            with self.assertRaises(Refused) as refused:
                roomy.go(0, 11)
            self.assertEqual(refused.exception.name, "no-room")
        with Handle(STUB, [8, 11]) as turning:
            turning.take_turns()
            turning.go_on(STUB, turning.opening())
            turning.go(0, 11)
            turning.go(1, 0)
            for _ in range(60):
                turning.tick()
            self.assertTrue(turning.is_idle())

    def test_a_wall(self):
        with Handle.reopen(WALL, self.state.trace()) as fleet:
            while not fleet.is_idle():
                fleet.tick()
            judge(WALL, fleet.trace())
        self.state.move(1, 6)
        self.refused(WALL, "robot 1 is on cell 6, which is no floor")
        self.state.move(1, 1)
        self.refused(WALL, "robots 0 and 1 are both on cell 1")
        self.state.move(1, 7)
        self.state.robots[1].errands[0].cell = 6
        self.refused(WALL, "no walk leads robot 1 from cell 7 to cell 6, where its errand 3 of client 0 goes")
        with Map(RING) as ring:
            self.assertIsNone(self.state.fault(ring))

    def test_what_is_no_state(self):
        for text in ("", "{}", "[1]", '{"opening":{"robots":[[1]]}}', self.fleet.trace()[:-1]):
            self.assertRaises(OutOfRange, Opening.of, text)
        for call in (lambda: self.state.cancel(0, 3), lambda: self.state.cancel(2), lambda: self.state.move(2, 0)):
            self.assertRaises(OutOfRange, call)


if __name__ == "__main__":
    unittest.main()

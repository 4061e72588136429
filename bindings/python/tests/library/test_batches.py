"""Tests of the calls of Handle that do more at once, and of a fleet that goes on, worked out by hand."""

import json
import unittest

from nashirudder import Arrival, OutOfRange, Refused
from nashirudder.library import CloseClient, Go, Handle, Judgement, Notice, Withdraw

RING = "type octile\nheight 3\nwidth 4\nmap\n....\n.@..\n....\n"
ROW = "type octile\nheight 1\nwidth 3\nmap\n...\n"


class Batches(unittest.TestCase):
    def test_orders(self):
        fleet = Handle(RING, robots=[0, 3], clients=2, queue=2)
        taken = fleet.take_many([Go(0, 11), Go(0, 1), Go(0, 1), Withdraw(2), CloseClient(1), Go(1, 7, client=1)])
        self.assertIsNone(taken.refused)
        self.assertEqual(taken.judgements, [
            Judgement("accepted", 1), Judgement("accepted", 2), Judgement("queue-full", None),
            Judgement("withdrawn", None), Judgement("closed", None), Judgement("client-closed", None),
        ])
        taken = fleet.take_many([Go(1, 7), Go(1, 6, client=2), Go(1, 7)])
        self.assertEqual((taken.judgements, taken.refused.name), ([Judgement("accepted", 3)], "no-client"))
        self.assertEqual(fleet.take_many([]).judgements, [])
        for order in (Go(-1, 1), Go(0, 2**32), Go(0, 1, 1.0), Withdraw(2**64), Withdraw(-1), CloseClient(2**32)):
            with self.subTest(order=order), self.assertRaises(OutOfRange):
                fleet.take_many([Go(1, 1), order])
        self.assertEqual((fleet.pending_count(), fleet.pending_count(1)), (5, 2))
        fleet.close()
        with self.assertRaises(Refused):
            fleet.take_many([Go(0, 1)])

    def test_ticks(self):
        fleet = Handle(RING, robots=[0, 3], clients=2)
        fleet.take_many([Go(1, 7, client=1), Go(0, 2)])
        fleet.shut(1)
        seen = []
        for _ in range(3):
            did = fleet.tick_record()
            seen.append((did.tick, list(did.cells), did.arrivals, did.farewells))
        self.assertEqual(seen, [
            (1, [1, 7], [Arrival(1, 1, 1, 7, 1, 0)], [1]),
            (2, [2, 7], [Arrival(0, 0, 1, 2, 2, 0)], []),
            (3, [2, 7], [], []),
        ])

    def test_mailboxes(self):
        fleet = Handle(ROW, robots=[0])
        fleet.go(0, 2), fleet.tick(), fleet.tick()
        verdict, arrival = Notice(1, 1, "accepted", 1), Notice(2, None, None, 1, 0, 2, 2, 0)
        self.assertEqual((fleet.peek(), fleet.peek(), fleet.pending_count()), (verdict, verdict, 2))
        self.assertEqual((fleet.give_many(most=1), fleet.give_many(), fleet.give_many()), ([verdict], [arrival], []))
        self.assertIsNone(fleet.peek())
        for call in (lambda: fleet.peek(1), lambda: fleet.give_many(1)):
            with self.assertRaises(Refused):
                call()
        for most in (0, 65537, -1, None):
            with self.assertRaises(OutOfRange):
                fleet.give_many(most=most)

    def test_views(self):
        fleet = Handle(RING, robots=[0, 3], clients=5, queue=7, clock=2**48)
        self.assertEqual((fleet.robots(), fleet.clients(), fleet.longest_wait()), (2, 5, None))
        limits = fleet.limits()
        self.assertEqual((limits["queue"], limits["clock"], limits["mailbox"], len(limits)), (7, 2**48, 64, 9))
        # The number of robots times the number of floor cells less one: docs/PROTOCOL.md.
        self.assertEqual((fleet.wait_limit(), Handle(ROW, robots=[0]).wait_limit()), (2 * 10, None))
        fleet.go(0, 11), fleet.tick()
        self.assertEqual(fleet.longest_wait(), 1)

    def test_a_fleet_that_goes_on(self):
        first = Handle(RING, robots=[0, 3], clients=2)
        first.go(0, 11), first.tick()
        kept = first.trace()
        again = Handle.reopen(RING, kept)
        self.assertEqual((list(again.placement()), again.clock(), again.robots(), again.clients()), ([1, 3], 1, 2, 2))
        self.assertEqual(json.loads(again.trace())["chapter"], 1)
        # Both go on alike: the errand to cell 11 is 4 steps away.
        first.next_chapter()
        for _ in range(4):
            self.assertEqual(list(first.tick_record().cells), list(again.tick_record().cells))
        self.assertEqual((first.trace(), again.placement()[0]), (again.trace(), 11))
        refused = (
            ("trace-not-json", lambda: Handle.reopen(RING, "{")),
            ("trace-shape", lambda: Handle.reopen(RING, '{"version":2}')),
            ("limits-differ", lambda: Handle.reopen(RING, kept, queue=3)),
            ("laws-differ", lambda: Handle.reopen(RING, kept, ranks=[(0, 0, 0, 0)])),
            ("map-header", lambda: Handle.reopen("", kept)),
        )
        for name, call in refused:
            with self.subTest(name), self.assertRaises(Refused) as caught:
                call()
            self.assertEqual(caught.exception.name, name)
        with self.assertRaises(OutOfRange):
            Handle.reopen(RING, kept, ranks=[(0, 0, 0)] * 2)


if __name__ == "__main__":
    unittest.main()

"""Tests of LiveFleet.reconnect: a fleet whose program is killed goes on, by a journal, with the errands that the caller holds. FLEET names the
built program. What is to become of the orders is worked out by hand, or is what the chapters say, judged by an independent model.
"""

import importlib.machinery
import importlib.util
import json
import random
import sys
import threading
import unittest
from unittest import mock

from kept_chapters import TOP
from killed_fleets import KilledFleetsTest
from nashirudder import Arrival, OrderRefused, Refused

# A chain of cuts lets a life tell no more lines.
MOST_LINES = 12
# By client, the orders of `play`, with their verdicts
TAKEN = {
    0: [
        [["go", 0, 1], ["accepted", 1]], [["go", 1, 4], ["refused", 5]], [["go", 0, 2], ["accepted", 2]], [["go", 0, 0], ["accepted", 3]],
        [["go", 0, 1], ["accepted", 4]], [["withdraw", 4], ["withdrawn"]],
    ],
    1: [[["go", 1, 7], ["accepted", 1]], [["close"], ["closed"]]],
}
# Robot 0 goes 0, 1, 2, 1, 0, and robot 1 goes 8, 7.
COME = [Arrival(0, 0, 1, 1, 1, 0), Arrival(1, 1, 1, 7, 1, 0), Arrival(0, 0, 2, 2, 2, 0), Arrival(0, 0, 3, 0, 4, 0)]


def kill_tool():
    """The script tools/live/kill, whose account is of all chapters, judged by the model."""
    loader = importlib.machinery.SourceFileLoader("kill", str(TOP / "tools" / "live" / "kill"))
    module = importlib.util.module_from_spec(importlib.util.spec_from_loader("kill", loader))
    with mock.patch.object(sys, "dont_write_bytecode", True):
        loader.exec_module(module)
    return module


class ReconnectTest(KilledFleetsTest):
    # ---- each line at which the program may be killed

    def play(self, fleet):
        """Some orders and ticks, by a caller that does as the documentation says."""
        def tick_to(tick):
            # A tick that was made and not told is not made again.
            while self.again(fleet, lambda: fleet.look().tick < tick and fleet.tick()):
                pass

        def withdraw(errand):
            if errand.state != "withdrawn":
                fleet.withdraw(errand)

        def close():
            # A second one is an order of its own, and is refused.
            self.closes += 1
            try:
                fleet.close_client(1)
            except Refused as refused:
                self.assertEqual(refused.name, "client-closed")

        def go(*order):
            errands.append(self.again(fleet, lambda: fleet.go(*order)))

        errands = []
        go(0, 1), go(1, 4), go(1, 7, 1)
        tick_to(1)
        go(0, 2), go(0, 0), go(0, 1)
        self.again(fleet, lambda: withdraw(errands[-1]))
        self.again(fleet, close)
        tick_to(4)
        # What the last tick told may be missing.
        for errand in errands:
            if errand.state == "accepted":
                self.again(fleet, lambda: errand.arrived(60))
        return errands

    def played(self, *cuts):
        """How often the program was killed in a play; it looks for orders and notices that are lost or there twice."""
        for name in self.chapters():
            (self.traces / name).unlink()
        self.cuts.write_text("".join(f"{cut}\n" for cut in cuts))
        self.kills = self.closes = 0
        with self.subTest(cuts=cuts), self.live(self.cut, clients=2) as fleet:
            errands = self.play(fleet)
            self.assertEqual([errand.state for errand in errands], ["arrived", "refused", "arrived", "arrived", "arrived", "withdrawn"])
            ledger = fleet._said._ledger
            self.assertEqual(ledger.arrivals, COME)
            self.assertEqual([errand._arrival for errand in errands], [COME[0], None, COME[1], COME[2], COME[3], None])
            # A cut that is not reached yet is not to meet the end.
            self.cuts.write_text("")
            for _ in range(MOST_LINES + 1):
                self.again(fleet, fleet.look)
        taken = self.taken()
        self.assertEqual([len([order for order, _ in ledger.verdicts if order.client == client]) for client in (0, 1)], [6, len(taken[1])])
        more = taken[1][len(TAKEN[1]):]
        self.assertEqual(taken, {**TAKEN, 1: TAKEN[1] + more})
        self.assertLess(len(more), self.closes)
        self.assertEqual([verdict for _, verdict in more], [["refused", 1]] * len(more))
        return self.kills

    def test_killed_before_each_line(self):
        """What a line says is on the disk when it is not told. The constructor hears a look and two sessions; then come the answers of 8 orders, 4
        ticks and 6 looks, 8 verdicts and 4 arrivals.
        """
        for line in range(3, 3 + 8 + 4 + 6 + 8 + 4):
            self.assertEqual(self.played(f"within {line}"), 1, line)

    def test_killed_again_and_again(self):
        draw, kills = random.Random(1), 0
        for _ in range(6):
            ways = [draw.choice(("within", "after")) for _ in range(5)]
            kills += self.played(*(f"{way} {draw.randint(3 if first else 0, MOST_LINES)}" for way, first in zip(ways, (1, 0, 0, 0, 0))))
        # A play may end before the last cuts, and never before the first.
        self.assertGreaterEqual(kills, 6)

    # ---- in real time

    def work(self, fleet, client, orders, failed):
        """Posts 40 errands, each once the one before is done; whoever meets the end has the fleet go on."""
        draw = random.Random(client)
        try:
            for _ in range(40):
                robot, cell = draw.randrange(2), draw.randrange(9)
                orders.append(self.again(fleet, lambda: fleet.go(robot, cell, client)))
                while orders[-1].state in ("posted", "accepted"):
                    try:
                        self.again(fleet, lambda: orders[-1].arrived(60))
                    except OrderRefused:
                        pass
        except BaseException as error:
            failed.append(error)

    def test_killed_in_real_time(self):
        """The program is killed 25 times, after some arrivals, or as soon as it is there."""
        draw, orders, failed, self.kills = random.Random(2), [[], [], []], [], 0
        fleet = self.live(clients=3, period_ms=2, chapter=64, keep_every_ms=50)
        ledger, left, killed = fleet._said._ledger, [draw.choice((0, 1, 3)) for _ in range(25)], None
        threads = [threading.Thread(target=self.work, args=(fleet, client, orders[client], failed)) for client in range(3)]
        for thread in threads:
            thread.start()
        while left and any(thread.is_alive() for thread in threads):
            until = len(ledger.arrivals) + left.pop()
            while any(thread.is_alive() for thread in threads) and (len(ledger.arrivals) < until or fleet._program.process is killed):
                threading.Event().wait(0.001)
            killed = fleet._program.process
            killed.kill()
        for thread in threads:
            thread.join()
        self.again(fleet, fleet.look)
        fleet.close()
        self.assertEqual((failed, left), ([], []))
        self.check_account(orders, ledger)

    def check_account(self, orders, ledger):
        """Each order is in the chapters once, and each notice of these was taken in once, in order."""
        kill = kill_tool()
        words = mock.Mock(clients=len(orders))
        grid = kill.model.Grid(*kill.model.read_map(self.map.read_bytes()))
        account, taken = kill.Account(words, grid), [[] for _ in orders]
        head = f"robots 0 8\nclients {len(orders)}\nchapter 64\n"
        numbers = kill.numbers_in(self.traces)
        self.assertEqual(numbers, list(range(len(numbers))))
        for number in numbers:
            name = self.traces / f"chapter-{number}.json"
            account.add(kill.talk.head_of(head.encode()), number, str(name), name.read_bytes())
            for entry in json.loads(name.read_text())["entries"]:
                if entry[0] == "take":
                    taken[entry[1]].append(entry[2])
        self.assertEqual((account.wrong, account.open), ([], {}))
        for client, errands in enumerate(orders):
            self.assertEqual(taken[client], [["go", errand.robot, errand.cell] for errand in errands])
            said = [words for (of, _), (_, words) in sorted(account.notices.items()) if of == client]
            self.assertEqual([words[2:] for words in said if words[0] == "verdict"], [self.verdict(errand) for errand in errands])
            come = [["arrived", *map(str, (one.number, "robot", one.robot, "cell", one.cell, "tick", one.tick))] for one in ledger.arrivals if one.client == client]
            self.assertEqual([words for words in said if words[0] == "arrived"], come)
            self.assertEqual([order for order, _ in ledger.verdicts if order.client == client], errands)
            self.assertEqual(sorted(errand._arrival.number for errand in errands if errand._arrival), list(range(1, account.accepted[client] + 1)))

    @staticmethod
    def verdict(errand):
        """What the account says of an errand."""
        return ["accepted", str(errand._number)] if errand._number else ["refused"]


if __name__ == "__main__":
    unittest.main()

"""How much longer calls of the fleet in this process take than those of a `Handle`: the least of many measurements, in turn,
of processor time. usage: speed.py [ROUNDS]"""
import random
import sys
import time

from nashirudder import library

ROBOTS, SIDE = 300, 64
MAP = f"type octile\nheight {SIDE}\nwidth {SIDE}\nmap\n" + ("." * SIDE + "\n") * SIDE


class Frames:
    """Frames in which each robot has an errand."""

    def __init__(self, go, tick):
        self.go, self.tick, self.busy, self.draw = go, tick, set(), random.Random(1)

    def __call__(self):
        for robot in range(ROBOTS):
            if robot not in self.busy:
                self.go(robot, self.draw.randrange(SIDE * SIDE))
                self.busy.add(robot)
        for arrival in self.tick():
            self.busy.discard(arrival.robot)


def compare(what, one, other, times, rounds):
    best = [float("inf")] * 2
    for _ in range(rounds):
        for at, call in enumerate((one, other)):
            begun = time.process_time()
            for _ in range(times):
                call()
            best[at] = min(best[at], (time.process_time() - begun) / times * 1e6)
    print(f"{what}: Handle {best[0]:.1f} us, Fleet {best[1]:.1f} us, {best[1] / best[0]:.2f} times as much")


def main(rounds):
    limits = {"mailbox": 2000, "lane": 2000, "chapter": 2**24}
    with library.Handle(MAP, range(ROBOTS), clock=2**48, life=2**40, orders=2**62, **limits) as handle, \
            library.Fleet(text=MAP, robots=range(ROBOTS), **limits) as fleet:
        def read():
            while handle.give_many():
                pass

        def refused():
            handle.go(0, SIDE * SIDE)
            read()

        def ticked():
            arrivals = handle.tick_record().arrivals
            read()
            return arrivals

        def fleet_ticked():
            fleet.tick()
            return fleet.arrivals

        compare("tick of 300 idle robots", handle.tick_record, fleet.tick, 10, rounds)
        compare("order", refused, lambda: fleet.go(0, SIDE * SIDE), 20, rounds)
        compare("frame of 300 busy robots", Frames(handle.go, ticked), Frames(fleet.go, fleet_ticked), 3, rounds)


main(int(sys.argv[1]) if len(sys.argv) > 1 else 100)

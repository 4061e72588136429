"""A fleet that runs for months, kept by `fleet talk`: notices are read, refused orders are looked at, full chapters go
to a folder, and no loop waits for an idle fleet. usage: controller.py MAP TICKS FOLDER"""
import random
import sys

from nashirudder import Fleet, OrderRefused

PATIENCE = 1000  # ticks after which an operator has to look at a robot


def main(site: str, ticks: int, folder: str) -> None:
    draw, begun, counts = random.Random(1), {}, {"accepted": 0, "refused": 0, "arrived": 0}
    # Full chapters are handed out by themselves, into the folder. The limits `clock` and `chapters` of `fleet talk` are
    # 2^48 ticks and 2^32 - 1 chapters. `chapter` is small here, so that this example has many of them.
    with Fleet(site, robots=[0, 1, 2, 3], clients=2, traces=folder, chapter=1000) as fleet:
        for tick in range(ticks):
            for robot in range(4):
                if robot in begun:
                    continue
                errand = fleet.go(robot, draw.randrange(45), client=robot % 2)
                try:
                    errand.accepted()  # at most two errands of a client are unfinished, so its mailbox has room
                except OrderRefused:
                    counts["refused"] += 1  # a shelf ("blocked"), say: the next turn tries another cell
                    continue
                counts["accepted"] += 1
                begun[robot] = tick
            fleet.tick()  # collects the notices too
            for arrival in fleet.arrivals:
                counts["arrived"] += 1
                del begun[arrival.robot]
            # On a map with a bridge a robot may wait for ever.
            for robot, since in begun.items():
                if tick - since == PATIENCE:
                    print(f"robot {robot} has waited {PATIENCE} ticks")
        print(f"ticks {fleet.look().tick}")
    print(*(f"{name} {count}" for name, count in counts.items()), file=sys.stderr)


main(sys.argv[1], int(sys.argv[2]), sys.argv[3])

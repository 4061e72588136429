"""A simulator: robots in a warehouse go to random cells, and to a new one when they have arrived. Prints how many errands arrive
in a thousand ticks, and looks by itself whether each accepted errand has arrived or is open. Arrays are NumPy's where NumPy
is there. usage: simulator.py [TICKS [ROBOTS..]]"""
import array
import random
import sys

from nashirudder.library import Handle, Map

SIDE = 40


def warehouse(side):
    """Shelves of two cells between aisles: each has a way round it, so there is no bridge."""
    rows = ("".join("@" if row % 3 == 1 and column % 4 in (1, 2) else "." for column in range(side)) for row in range(side))
    return f"type octile\nheight {side}\nwidth {side}\nmap\n" + "".join(row + "\n" for row in rows)


def need(holds, what):
    if not holds:
        sys.exit(f"it does not hold that {what}")


def simulate(text, floor, robots, ticks):
    """How many errands arrived."""
    draw = random.Random(1)
    starts = draw.sample(floor, robots)
    cells, free = array.array("I", starts), list(range(robots))
    accepted = arrived = 0
    with Handle(text, starts, clock=2**48, life=2**40, chapter=2**24) as fleet:
        for _ in range(ticks):
            taken = fleet.go_many(free, [draw.choice(floor) for _ in free])
            need(taken.refused is None and len(taken.judgements) == len(free), "each order is taken")
            accepted += sum(one.verdict == "accepted" for one in taken.judgements)
            did = fleet.tick_record(out=cells)          # into an array of one's own, without a copy
            free = [one.robot for one in did.arrivals]
            arrived += len(free)
            need(len(set(cells)) == robots and all(cells[one.robot] == one.cell for one in did.arrivals), "robots are where they arrive")
            while fleet.give_many():
                pass
        need(accepted == arrived + len(fleet.open_errands()), "each accepted errand has arrived or is open")
    return arrived


def main(ticks, fleets):
    text = warehouse(SIDE)
    with Map(text) as map:
        need(map.first_bridge() is None, "the map has no bridge")
        floor = [int(cell) for cell in map.floor_cells()]
    for robots in fleets:
        arrived = simulate(text, floor, robots, ticks)
        print(f"{robots} robots: each errand has arrived or is open")
        print(f"{robots} robots: {1000 * arrived / ticks:.0f} arrivals in 1,000 ticks", file=sys.stderr)


words = [int(word) for word in sys.argv[1:]] or [500]
main(words[0], words[1:] or [20, 100, 200])

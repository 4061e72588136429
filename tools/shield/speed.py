#!/usr/bin/env python3
"""How long a step of a shield takes from Python, with five preferences for each robot, in any order, on open floor: processor time in
microseconds, the least of all steps and their median, with arrays and with lists. The arrays are those of the standard library, which are
handed on as NumPy's are. Needs the library of tools/build_c.

usage: tools/shield/speed.py
"""
import array
import pathlib
import random
import sys
import time

TOP = pathlib.Path(__file__).resolve().parent.parent.parent
sys.path.insert(0, str(TOP / "bindings" / "python"))
from nashirudder.library import Map, Shield  # noqa: E402


def ways_from(side, cell, draw):
    """A robot's preferences; at the edge of the map its own cell is there in place of one that is not."""
    row, column = divmod(cell, side)
    ways = [(row - 1, column), (row, column + 1), (row + 1, column), (row, column - 1)]
    ways = [r * side + c if 0 <= r < side and 0 <= c < side else cell for r, c in ways] + [cell]
    draw.shuffle(ways)
    return ways


def took(call):
    begun = time.process_time()
    call()
    return (time.process_time() - begun) * 1e6


def measure(side, robots, steps):
    text = f"type octile\nheight {side}\nwidth {side}\nmap\n" + ("." * side + "\n") * side
    draw, times = random.Random(1), {"arrays": [], "lists": []}
    with Map(text) as map, Shield(map, robots) as shield:
        cells, out = array.array("I", draw.sample(range(side * side), robots)), array.array("I", bytes(4 * robots))
        order = list(range(robots))
        for _ in range(steps):
            draw.shuffle(order)
            rows = [ways_from(side, cell, draw) for cell in cells]
            ranks, flat = array.array("I", order), array.array("I", [cell for row in rows for cell in row])
            wanted, stand = memoryview(flat).cast("B").cast("I", (robots, 5)), list(cells)
            times["lists"].append(took(lambda: shield.step(stand, order, rows)))
            times["arrays"].append(took(lambda: shield.step(cells, ranks, wanted, out=out)))
            cells, out = out, cells
    for name, spent in times.items():
        spent.sort()
        print(f"{robots} robots on {side} x {side} cells, {name}: least {spent[0]:.0f} us, median {spent[len(spent) // 2]:.0f} us")


if __name__ == "__main__":
    if sys.argv[1:]:
        sys.exit(print(__doc__.strip()))
    measure(64, 500, 1000)
    measure(160, 10000, 60)

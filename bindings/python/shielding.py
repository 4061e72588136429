"""Shields a random policy for robots in a warehouse: prints how many moves the policy asked for and how many were made, and checks
each step for conflicts by itself.

usage: shielding.py [--robots N] [--steps N] [--seed N]
"""
import argparse
import random

from nashirudder.library import Map, Shield

# Shelves of four by two cells, with aisles between them
HEIGHT, WIDTH = 43, 61
FLOOR = [row % 3 == 0 or column % 5 == 0 for row in range(HEIGHT) for column in range(WIDTH)]
TEXT = f"type octile\nheight {HEIGHT}\nwidth {WIDTH}\nmap\n" + "\n".join(
    "".join(".@"[not FLOOR[row * WIDTH + column]] for column in range(WIDTH)) for row in range(HEIGHT)) + "\n"


def ways_from(cell):
    """The cell itself and the floor next to it."""
    row, column = divmod(cell, WIDTH)
    ways = [(row, column), (row - 1, column), (row + 1, column), (row, column - 1), (row, column + 1)]
    return [r * WIDTH + c for r, c in ways if 0 <= r < HEIGHT and 0 <= c < WIDTH and FLOOR[r * WIDTH + c]]


WAYS = [ways_from(cell) for cell in range(HEIGHT * WIDTH)]


def policy(draw, cells):
    """What each robot prefers: all its ways, in any order. This is where a learned policy would be."""
    return [draw.sample(WAYS[cell], len(WAYS[cell])) for cell in cells]


def conflicts(cells, after):
    """How many robots come to a cell that another one comes to, exchange their cells, or go too far."""
    moved = {(before, new) for before, new in zip(cells, after) if before != new}
    return len(after) - len(set(after)) + sum((new, before) in moved for before, new in moved) + sum(
        new not in WAYS[before] for before, new in zip(cells, after))


def main():
    words = argparse.ArgumentParser(usage=__doc__.split("usage: ")[1].strip())
    for word, least in (("--robots", 500), ("--steps", 1000), ("--seed", 1)):
        words.add_argument(word, type=int, default=least)
    asked = words.parse_args()
    draw = random.Random(asked.seed)
    wanted = made = found = 0
    with Map(TEXT) as map, Shield(map, asked.robots) as shield:
        cells = draw.sample([cell for cell, is_floor in enumerate(FLOOR) if is_floor], asked.robots)
        order = list(range(asked.robots))
        for _ in range(asked.steps):
            # A new order in each step, so that no robot is always the last.
            draw.shuffle(order)
            preferences = policy(draw, cells)
            after = shield.step(cells, order, preferences)
            after = [int(cell) for cell in after]
            wanted += sum(first != cell for (first, *_), cell in zip(preferences, cells))
            made += sum(new != cell for new, cell in zip(after, cells))
            found += conflicts(cells, after)
            cells = after
    print(f"{asked.robots} robots, {asked.steps} steps: {wanted} moves asked for, {made} made, {found} conflicts")
    return found > 0


if __name__ == "__main__":
    raise SystemExit(main())

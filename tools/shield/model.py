#!/usr/bin/env python3
"""An independent model of fleet_shield's step: PIBT over preferences, as a recursion over dictionaries.

usage: tools/shield/model.py cases N SEED     N steps on a small crowded map, as rows of crates/test_shield/src/cases.rt
       tools/shield/model.py lines N SEED     N steps on random maps, one a line: height and width; letters; from; order; how many preferences each has; preferences; to
       tools/shield/model.py laws N SEED      makes N steps on small maps, and tests on each what a step's contract says

The model shares nothing with the crate but the rule: it has no table of cells, no count of what was tried, and it looks at all steps that could be made.
"""
import itertools
import random
import sys

MAP = (".....", "..@..")


class Floor:
    """A map as a graph."""

    def __init__(self, rows):
        self.rows = rows
        self.width = len(rows[0])
        self.cells = [r * self.width + c for r, row in enumerate(rows) for c, letter in enumerate(row) if letter == "."]

    def neighbours(self, cell):
        column = cell % self.width
        ways = [cell - self.width, cell + self.width]
        ways += [cell - 1] if column else []
        ways += [cell + 1] if column + 1 < self.width else []
        return [it for it in ways if it in self.cells]


def step(at, order, lists):
    """Returns each robot's new cell."""
    to = {}

    def choose(robot, asker):
        for cell in lists[robot] + [at[robot]]:
            if cell in to.values() or (asker is not None and cell == at[asker]):
                continue
            to[robot] = cell
            pushed = next((it for it in range(len(at)) if at[it] == cell and it not in to), None)
            if pushed is None or choose(pushed, robot):
                return True
            # The pushed robot stays, so this one has to choose again.
        to[robot] = at[robot]
        return False

    for robot in order:
        if robot not in to:
            choose(robot, None)
    return [to[robot] for robot in range(len(at))]


def is_free(at, to):
    """Whether no two robots come to one cell or exchange their cells."""
    pairs = itertools.combinations(range(len(at)), 2)
    return all(to[a] != to[b] and not (to[a] == at[b] and to[b] == at[a]) for a, b in pairs)


def faults(at, order, lists, to):
    """Returns what a step's contract says and does not hold."""
    found = [] if is_free(at, to) else ["conflict_free"]
    robots = range(len(at))
    found += ["preferred" for it in robots if to[it] != at[it] and to[it] not in lists[it]]
    for robot in robots:
        best = list(itertools.takewhile(lambda cell: cell != to[robot], lists[robot]))
        for cell in best:
            there = next((it for it in robots if at[it] == cell), None)
            swaps = there is not None and to[there] == at[robot]
            pushed = there is not None and at[robot] in lists[there] and to[robot] == at[robot]
            if not (cell in to or swaps or pushed):
                found.append("best_left")
    if order and lists[order[0]]:
        first = order[0]
        ways = [sorted(set(lists[it] + [at[it]])) for it in robots]
        could = any(other[first] == lists[first][0] and is_free(at, other) for other in itertools.product(*ways))
        if could and to[first] != lists[first][0]:
            found.append("first")
    return found


def drawn(chance, rows, most, each):
    """Returns a placement, an order and lists of preferences."""
    floor = Floor(rows)
    count = chance.randint(1, min(most, len(floor.cells)))
    at = chance.sample(floor.cells, count)
    order = chance.sample(range(count), count)
    lists = [[chance.choice(floor.neighbours(cell) + [cell]) for _ in range(each)] for cell in at]
    return at, order, lists


def random_rows(chance, side):
    """Returns a map with a floor cell."""
    while True:
        rows = ["".join(chance.choice("...@") for _ in range(chance.randint(1, side))) for _ in range(1)]
        rows += ["".join(chance.choice("...@") for _ in rows[0]) for _ in range(chance.randint(0, side - 1))]
        if any("." in row for row in rows):
            return rows


def main():
    mode, count, chance = sys.argv[1], int(sys.argv[2]), random.Random(int(sys.argv[3]))
    wrong = 0
    for _ in range(count):
        if mode == "cases":
            each = chance.randint(1, 3)
            at, order, lists = drawn(chance, MAP, 8, each)
            cells = [cell for it in lists for cell in it]
            print(f"    Case {{ from: &{at}, order: &{order}, each: {each}, cells: &{cells}, to: &{step(at, order, lists)} }},")
        elif mode == "lines":
            rows, each = random_rows(chance, 7), chance.randint(0, 5)
            at, order, lists = drawn(chance, rows, 49, each)
            parts = (at, order, [each], [cell for it in lists for cell in it], step(at, order, lists))
            print(f"{len(rows)} {len(rows[0])}", "".join(rows), *(" ".join(map(str, part)) for part in parts), sep=";")
        else:
            at, order, lists = drawn(chance, random_rows(chance, 4), 6, chance.randint(0, 4))
            found = faults(at, order, lists, step(at, order, lists))
            if found:
                wrong += 1
                print(at, order, lists, *found)
    if mode == "laws":
        print(f"{count} steps, {wrong} wrong")
    return 1 if wrong else 0


sys.exit(main())

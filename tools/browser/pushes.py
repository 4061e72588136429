"""Who pushes whom in a step: what the page works out from a step, next to a planner that writes down whom it asks to make room."""
import json
import random

SIDE = 6


def fields(floor):
    """For each floor cell the distances to it."""
    def near(cell):
        row, column = divmod(cell, SIDE)
        steps = [(row - 1, column), (row, column + 1), (row + 1, column), (row, column - 1)]
        return [a * SIDE + b for a, b in steps if 0 <= a < SIDE and 0 <= b < SIDE and floor[a * SIDE + b]]

    far = {}
    for goal in (cell for cell, is_floor in enumerate(floor) if is_floor):
        far[goal], reached = {goal: 0}, [goal]
        for cell in reached:
            for other in near(cell):
                if other not in far[goal]:
                    far[goal][other] = far[goal][cell] + 1
                    reached.append(other)
    return near, far


class Step:
    """Priority inheritance with backtracking, sentence by sentence."""

    def __init__(self, near, far, cells, goals, waits, rng):
        self.near, self.far, self.cells, self.goals, self.rng = near, far, cells, goals, rng
        self.next = [None] * len(cells)
        self.pushed_by = [-1] * len(cells)
        order = sorted(range(len(cells)), key=lambda robot: (waits[robot] is None, -(waits[robot] or 0), robot))
        for robot in order:
            if self.next[robot] is None:
                self.place(robot)

    def place(self, robot):
        here = self.cells[robot]
        wanted = [*self.near(here), here]
        self.rng.shuffle(wanted)
        wanted.sort(key=lambda cell: self.far[self.goals[robot]].get(cell, 999))
        for cell in wanted:
            if cell in self.next or any(self.next[other] == here and self.cells[other] == cell for other in range(len(self.cells)) if other != robot):
                continue
            self.next[robot] = cell
            on_it = [other for other, place in enumerate(self.cells) if place == cell and other != robot and self.next[other] is None]
            if on_it and not self.place(on_it[0]):
                self.next[robot] = None
                continue
            if on_it:
                self.pushed_by[on_it[0]] = robot
            return True
        self.next[robot] = here
        return False


def steps(count, seed=11):
    rng = random.Random(seed)
    for _ in range(count):
        floor = [rng.random() > 0.15 for _ in range(SIDE * SIDE)]
        near, far = fields(floor)
        places = list(far)
        cells = rng.sample(places, rng.randrange(1, max(2, len(places) * 9 // 10)))
        waits = [rng.choice([None, *range(4)]) for _ in cells]
        goals = [cell if wait is None else rng.choice(places) for cell, wait in zip(cells, waits)]
        step = Step(near, far, cells, goals, waits, rng)
        yield cells, step.next, waits, step.pushed_by


def check_pushes(browser, count=2000):
    """How many steps were compared, and what is wrong; the page of a trace has to be open."""
    cases = list(steps(count))
    asked = json.dumps([case[:3] for case in cases])
    told = browser.run(f'{asked}.map(([cells, next, waits]) => [...pushesOf(Int32Array.from(cells), next, orderOf(waits))])')
    wrong = [f'pushes in {case}: {pushed}' for case, pushed in zip(cases, told) if pushed != case[3]]
    pushes = sum(one >= 0 for case in cases for one in case[3])
    return pushes, wrong

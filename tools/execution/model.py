#!/usr/bin/env python3
"""An independent model of the execution of plans: it keeps, for each cell, the list of its visits.

usage: tools/execution/model.py --calls | --answers [COUNT [SEED]]

Prints random plans and interleavings as calls of the program golden_execution, or what the model answers to them; the
stored input and output of that crate are `--calls 100 7` and `--answers 100 7`. tools/execution/check plays many more.

A robot may begin its next move (to a cell c) when every earlier visit of c has ended. A visit ends, by the clearance
`arrived`, when the robot has reached its next cell, or, by `started`, when it has begun to leave. Robots that turn in a
cycle begin together, when each is ready but for the others; under `arrived` none of them begins its next move before all
of them have reached theirs.

Calls, a line each, and their answers; a move is ROBOT FROM TO TICK:
    start CLEARANCE CELLS AHEAD CELL..   (none) CLEARANCE is arrived or started; then the cell of each robot
    plan CELL..                          planned | conflict | full
    begin                                begins MOVE..: all moves that may begin, by robot
    one                                  begins [MOVE]: the next of them
    reached ROBOT                        reached MOVE | not-under-way ROBOT
    stand                                stands (CELL BOUND LEFT)..: of each robot; BOUND is - if it is not under way
    behind                               behind STEPS: the steps from the first with a move that is not reached
"""
import collections
import random
import sys


class Execution:
    """Robots that carry out a plan."""

    def __init__(self, clearance, cells, ahead, placement):
        self.clearance, self.cells, self.window = clearance, cells, ahead
        self.at = list(placement)  # the cell that a robot stands on, or leaves
        self.to = [None] * len(placement)  # the cell to which it is under way
        self.on = [0] * len(placement)  # the tick of that move
        self.ahead = [collections.deque() for _ in placement]  # planned moves that have not begun: (tick, cell)
        self.visits = collections.defaultdict(collections.deque)
        for robot, cell in enumerate(placement):
            self.visits[cell].append(robot)
        self.last, self.tick, self.cycles = list(placement), 0, {}
        self.turn = [None] * len(placement)  # of a robot that turned: who of its cycle has not arrived
        self.holds = [False] * len(placement)  # under way, and its visit of the cell that it leaves has not ended
        self.told = set()  # who has begun with a cycle, and was not returned yet
        self.open = []  # planned moves that are not reached: (tick, robot)

    def has_room(self):
        return all(tick + self.window > self.tick + 1 for tick, _ in self.open)

    def is_step(self, to):
        robots = range(len(self.last))
        return (
            len(to) == len(self.last)
            and all(cell < self.cells for cell in to)
            and len(set(to)) == len(to)
            and not any(to[r] == self.last[q] and to[q] == self.last[r] for r in robots for q in range(r))
        )

    def plan(self, to):
        self.tick += 1
        moves = {robot: cell for robot, cell in enumerate(to) if cell != self.last[robot]}
        on = {cell: robot for robot, cell in enumerate(self.last)}
        for robot in moves:
            ring, at = [robot], on.get(moves[robot])
            while at in moves and at not in ring:
                ring.append(at)
                at = on.get(moves[at])
            if at == robot:
                self.cycles[robot, self.tick] = ring
        for robot, cell in moves.items():
            self.ahead[robot].append((self.tick, cell))
            self.visits[cell].append(robot)
            self.open.append((self.tick, robot))
        self.last = list(to)

    def is_free(self, robot):
        return self.to[robot] is None and not (self.clearance == "arrived" and self.turn[robot])

    def ready(self, robot):
        """The robots that begin together with this one; none if it may not begin."""
        if not self.ahead[robot] or not self.is_free(robot):
            return []
        tick, cell = self.ahead[robot][0]
        ring = self.cycles.get((robot, tick))
        if not ring:
            return [robot] if self.visits[cell][0] == robot else []
        for mate in ring:
            if not self.is_free(mate) or not self.ahead[mate] or self.ahead[mate][0][0] != tick:
                return []
            visits = self.visits[self.ahead[mate][0][1]]
            if len(visits) < 2 or visits[1] != mate:
                return []
        return ring

    def begin(self, robot):
        """Begins the robot's move, with the cycle in which it turns."""
        group, tick = self.ready(robot), self.ahead[robot][0][0]
        turning, pending = (robot, tick) in self.cycles, set(group)
        for mate in group:
            self.on[mate], self.to[mate] = self.ahead[mate].popleft()
            self.turn[mate] = pending if turning else None
            if turning or self.clearance == "started":
                self.visits[self.at[mate]].remove(mate)
            else:
                self.holds[mate] = True
        return group

    def may_begin(self):
        return [robot for robot in range(len(self.at)) if self.ready(robot)]

    def move(self, robot):
        return (robot, self.at[robot], self.to[robot], self.on[robot])

    def take(self, robot):
        """Whether the robot's move may be returned as the next one that begins; it is returned then."""
        if self.told:
            if robot not in self.told:
                return False
            self.told.discard(robot)
            return True
        if not self.ready(robot):
            return False
        self.told = set(self.begin(robot)) - {robot}
        return True

    def is_under_way(self, robot):
        return robot < len(self.at) and self.to[robot] is not None and robot not in self.told

    def reached(self, robot):
        self.open.remove((self.on[robot], robot))
        if self.holds[robot]:
            assert self.visits[self.at[robot]].popleft() == robot
            self.holds[robot] = False
        if self.turn[robot]:
            self.turn[robot].discard(robot)
        self.at[robot], self.to[robot] = self.to[robot], None

    def standings(self):
        under_way = [self.is_under_way(robot) for robot in range(len(self.at))]
        return [
            (self.at[r], self.to[r] if under_way[r] else "-", len(self.ahead[r]) + (r in self.told))
            for r in range(len(self.at))
        ]

    def behind(self):
        return self.tick - min(tick for tick, _ in self.open) + 1 if self.open else 0


def random_step(rng, cells, near, width, height):
    """A step that is free of conflicts, often with a cycle."""
    if rng.random() < 0.4 and height > 1 and width > 1:
        corner = rng.randrange(height - 1) * width + rng.randrange(width - 1)
        ring = [corner, corner + 1, corner + width + 1, corner + width]
        if all(cell in cells for cell in ring) and all(cell in near for cell in ring):
            turn = {ring[i]: ring[(i + 1) % 4] for i in range(4)}
            return [turn.get(cell, cell) for cell in cells]
    to = [rng.choice(near[cell] + [cell]) for cell in cells]
    for _ in range(40):
        bad = [
            r for r in range(len(to))
            if to.count(to[r]) > 1 or any(q != r and to[r] == cells[q] and to[q] == cells[r] for q in range(len(to)))
        ]
        if not bad:
            return to
        for robot in bad:
            to[robot] = rng.choice(near[cells[robot]] + [cells[robot]])
    return list(cells)


def random_cells(rng, cells, count):
    """Cells that are mostly no step: two robots on one, an exchange, a cell outside, one robot too many or too few."""
    to, kind = list(cells), rng.randrange(4)
    if kind == 0 and len(to) > 1:
        one, other = rng.sample(range(len(to)), 2)
        to[one] = to[other]
    elif kind == 1 and len(to) > 1:
        one, other = rng.sample(range(len(to)), 2)
        to[one], to[other] = to[other], to[one]
    elif kind == 2:
        to[rng.randrange(len(to))] = count + rng.randrange(3)
    else:
        to = to[1:] if rng.random() < 0.5 else to + [rng.randrange(count)]
    return to


def site(rng):
    """A random map and placement: its sides, the neighbours of its floor cells, and the robots' cells."""
    height, width = rng.randint(1, 4), rng.randint(2, 5)
    floor = [cell for cell in range(height * width) if rng.random() > 0.15] or [0]
    near = {
        c: [d for d in (c - width, c + 1 if (c + 1) % width else -1, c + width, c - 1 if c % width else -1) if d in floor]
        for c in floor
    }
    return height, width, near, rng.sample(floor, rng.randint(1, min(8, len(floor))))


def line(*parts):
    return " ".join(str(part) for part in parts)


def flat(items):
    return [part for item in items for part in item]


def case(rng, tell):
    """Plays a random plan with random interleavings, in which all moves that may begin begin at once."""
    height, width, near, cells = site(rng)
    length, ahead, clearance = rng.randint(1, 14), rng.randint(1, 5), rng.choice(["arrived", "started"])
    run, robots = Execution(clearance, height * width, ahead, cells), len(cells)
    tell(line("start", clearance, height * width, ahead, *cells), None)
    while True:
        under_way = [robot for robot in range(robots) if run.is_under_way(robot)]
        can = ["plan"] * (run.tick < length and run.has_room()) + ["begin"] * bool(run.may_begin()) + ["reached"] * (2 * bool(under_way))
        if not can:
            break
        act = rng.choice(can)
        if rng.random() < 0.15:
            to = random_cells(rng, cells, height * width)
            answer = "full" if not run.has_room() else None if run.is_step(to) else "conflict"
            if answer:
                tell(line("plan", *to), answer)
        if act == "plan":
            cells = random_step(rng, cells, near, width, height)
            run.plan(cells)
            tell(line("plan", *cells), "planned")
        elif act == "begin":
            begun = []
            while run.may_begin():
                begun += run.begin(rng.choice(run.may_begin()))
            tell("begin", line("begins", *flat(run.move(robot) for robot in sorted(begun))))
            for robot in range(robots + 1):
                if not run.is_under_way(robot) and rng.random() < 0.2:
                    tell(line("reached", robot), line("not-under-way", robot))
        else:
            robot = rng.choice(under_way)
            tell(line("reached", robot), line("reached", *run.move(robot)))
            run.reached(robot)
        if not run.may_begin() and rng.random() < 0.1:
            tell("begin", "begins")
        if rng.random() < 0.3:
            tell("stand", line("stands", *flat(run.standings())))
            tell("behind", line("behind", run.behind()))
    assert run.tick == length and not run.open and run.at == cells
    tell("stand", line("stands", *flat((cell, "-", 0) for cell in cells)))


def main():
    words = sys.argv[1:]
    if not words or words[0] not in ("--calls", "--answers"):
        sys.exit(__doc__)
    count, seed = (list(map(int, words[1:])) + [100, 7])[:2] if len(words) != 2 else (int(words[1]), 7)

    def tell(call, answer):
        if words[0] == "--calls":
            print(call)
        elif answer is not None:
            print(answer)

    rng = random.Random(seed)
    for _ in range(count):
        case(rng, tell)


if __name__ == "__main__":
    main()

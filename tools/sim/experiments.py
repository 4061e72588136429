"""Experiments by definition: the runs of `fleet sim` and their table, written from docs/EXPERIMENTS.md. The step is that of tools/reference/model.py. Standard library only."""
import json
import math
import pathlib
import sys

sys.path.insert(0, str(pathlib.Path(__file__).resolve().parent.parent / "reference"))
import model  # noqa: E402

WORD = 2 ** 64 - 1
LIMITS = model.limits(queue=1, mailbox=4096, life=2 ** 40, orders=2 ** 62, clock=2 ** 48, chapter=16_777_216)
SPREADS = ("throughput", "service_median", "service_p90", "service_p99", "delay", "delay_ratio", "longest_wait")


class Random:
    """xoshiro256++, seeded by SplitMix64."""

    def __init__(self, seed):
        self.state = []
        for _ in range(4):
            seed = (seed + 0x9E3779B97F4A7C15) & WORD
            mixed = ((seed ^ (seed >> 30)) * 0xBF58476D1CE4E5B9) & WORD
            mixed = ((mixed ^ (mixed >> 27)) * 0x94D049BB133111EB) & WORD
            self.state.append(mixed ^ (mixed >> 31))

    def below(self, bound):
        return self.next() % bound

    def next(self):
        a, b, c, d = self.state
        drawn = (turned((a + d) & WORD, 23) + a) & WORD
        c, d = c ^ a, d ^ b
        self.state = [a ^ d, b ^ c, c ^ ((b << 17) & WORD), turned(d, 45)]
        return drawn


def turned(word, by):
    return ((word << by) | (word >> (64 - by))) & WORD


def sides(grid, bridge):
    """The cells on each side of a bridge."""
    for start in bridge:
        seen, todo = {start}, [start]
        while todo:
            cell = todo.pop()
            for _, other in grid.neighbours(cell):
                if other not in seen and {cell, other} != set(bridge):
                    seen.add(other)
                    todo.append(other)
        yield seen


def roomy(grid, robots):
    """The cells that are roomy: each side of each bridge that has it has a cell for each robot."""
    cells = set(filter(grid.is_floor, range(grid.size())))
    for bridge in grid.bridges():
        for side in sides(grid, bridge):
            if len(side) < robots:
                cells -= side
    return cells


def random_hooks(robots, seed):
    """Hooks whose ranks are random, by seed, tick, robot and direction."""
    def rank(robot, _cell, _neighbour, way, tick):
        return Random((seed * 2 ** 32 + (tick * 512 + robot) * 4 + way) & WORD).next() >> 56

    plain = model.plain_hooks(robots)
    return model.Hooks([(((0,) * 4, (255,) * 4), rank)] * robots, plain.arrivals, plain.farewells)


def run(grid, robots, seed, ticks, warm_up, goals, mover=None, ties="plain", starts=None, tasks=None):
    """Makes a run; returns its figures. Of `tasks`, if there are some, the goals are handed out in turn."""
    random, turn = Random(seed), 0
    cells = starts or list(filter(grid.is_floor, range(grid.size())))
    for robot in range(0 if starts else robots):
        other = robot + random.below(len(cells) - robot)
        cells[robot], cells[other] = cells[other], cells[robot]
    world = model.World(grid, cells[:robots], 1, LIMITS, hooks=random_hooks(robots, seed) if ties == "random" else None, mover=mover)
    goals = sorted(goals)
    begun, rows, waited, arrivals = {}, [], 0, []

    def chosen(own):
        nonlocal turn
        if tasks is None:
            choice = [it for it in goals if it != own and grid.same_part(it, own)]
            return choice[random.below(len(choice))] if choice else None
        for _ in tasks:
            cell, turn = tasks[turn % len(tasks)], turn + 1
            if cell != own and cell in goals and grid.same_part(cell, own):
                return cell
        return None

    def send(robot):
        own = world.place[robot]
        cell = chosen(own)
        if cell is not None:
            assert world.take(0, ("go", robot, cell))[0] == "accepted"
            begun[robot] = (world.ticks, grid.field(cell)[own])

    for robot in range(robots):
        send(robot)
    while world.ticks < warm_up + ticks:
        if world.ticks >= warm_up:
            waited = max([waited, *(it for it in world.waits if it is not None)])
        world.tick()
        come = [it for it in world.mail[0] if it[0] == "arrived"]
        world.mail[0].clear()
        for _, _, _, robot, _, tick, _ in come:
            accepted, distance = begun.pop(robot)
            if tick > warm_up:
                rows.append((tick - accepted, distance))
            send(robot)
        if world.ticks > warm_up:
            arrivals.append(len(come))
    return figures(ticks, arrivals, waited, rows)


def part(number, by):
    """Thousandths of a quotient, rounded down; none by 0."""
    return number * 1000 // by if by else None


def figures(ticks, arrivals, waited, rows):
    times = sorted(time for time, _ in rows)
    count, travel, distance = len(rows), sum(times), sum(it for _, it in rows)

    def at(left):
        return times[count - left - 1] * 1000 if count else None

    return {
        "throughput": part(sum(arrivals), ticks),
        "service_median": times[(count - 1) // 2] * 1000 if count else None,
        "service_p90": at(count // 10),
        "service_p99": at(count // 100),
        "delay": part(travel - distance, count),
        "delay_ratio": part(travel, distance),
        "longest_wait": waited * 1000,
        "frozen": not sum(arrivals[len(arrivals) - (len(arrivals) + 3) // 4:]),
    }


def line(robots, ticks, runs):
    """The cells of a line: name, number, whether it has three decimals."""
    cells = [("robots", robots, False), ("runs", len(runs), False), ("ticks", ticks, False), ("frozen", sum(it["frozen"] for it in runs), False)]
    for name in SPREADS:
        values = [it[name] for it in runs if it[name] is not None]
        mean = sum(values) // len(values) if values else None
        more = len(values) > 1
        cells.append((name, mean, True))
        cells.append((f"{name}_deviation", math.isqrt(sum((it - mean) ** 2 for it in values) // (len(values) - 1)) if more else None, True))
    return cells


def cell_text(number, parts, nothing):
    if number is None:
        return nothing
    return f"{number // 1000}.{number % 1000:03}" if parts else str(number)


def table(form, lines):
    """The table as text."""
    if form == "json":
        return json.dumps([{name: number if not parts or number is None else number / 1000 for name, number, parts in it} for it in lines])
    names = [name for name, _, _ in lines[0]]
    if form == "csv":
        return "".join(",".join(it) + "\n" for it in [names, *([cell_text(number, parts, "") for _, number, parts in it] for it in lines)])
    return "".join(f"{name:<26}" + "".join(f" {cell_text(it[at][1], it[at][2], 'none'):>10}" for it in lines) + "\n" for at, name in enumerate(names))

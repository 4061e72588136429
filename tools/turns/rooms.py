"""Robots that take turns in rooms, by definition: rooms are found by walks, as the sides of the bridges around one block of each part, and one robot's wait and goal are lent.

The step is that of tools/reference/model.py, which knows nothing of turns: `Shut` is a grid with one door that is shut from one side. `mover(grid, robots)` is what plans
the ticks of a `model.World`. Where several blocks of a part are best any of them may be the core, so maps on which that matters have no rooms here. Standard library only.
"""
import pathlib
import sys

sys.path.insert(0, str(pathlib.Path(__file__).resolve().parent.parent / "reference"))
import model


class Shut:
    """A grid with a door that is shut from one side; distances are those of the whole grid."""

    def __init__(self, grid, door):
        self.grid, self.door = grid, door

    def neighbours(self, cell):
        beside = self.grid.neighbours(cell)
        return beside if self.door is None or cell != self.door[0] else [it for it in beside if it[1] != self.door[1]]

    def field(self, goal):
        return self.grid.field(goal)


def beside_of(grid):
    """Returns the floor cells next to each floor cell."""
    return {cell: [other for _, other in grid.neighbours(cell)] for cell in filter(grid.is_floor, range(grid.size()))}


def reached(beside, start, cut=None):
    """Returns the cells that walks from a cell reach without the edge `cut`."""
    seen, todo = {start}, [start]
    while todo:
        cell = todo.pop()
        for other in beside[cell]:
            if other not in seen and {cell, other} != cut:
                seen.add(other)
                todo.append(other)
    return frozenset(seen)


def classes(beside):
    """Returns the sets of cells that walks join."""
    left, found = set(beside), []
    while left:
        found.append(reached(beside, min(left)))
        left -= found[-1]
    return found


def bridges_of(beside):
    """Returns the cells beyond each bridge, by its mouth and its door."""
    beyond = {}
    for part in classes(beside):
        for a in part:
            for b in beside[a]:
                if a < b and a not in (side := reached(beside, b, {a, b})):
                    beyond[a, b], beyond[b, a] = side, part - side
    return beyond


def rooms_of(beside, robots=None):
    """Returns the room of each cell around its part's best block, by cell: mouth, door, cells, or None in the block; and the capacity of its part, by cell. None if several
    blocks of a part are best; with `robots` only where so many robots, two or more, are served in that part, and so may go elsewhere by another core."""
    bridges = bridges_of(beside)
    inner = {cell: [other for other in beside[cell] if (cell, other) not in bridges] for cell in beside}
    blocks, rooms, capacity = classes(inner), {}, {}
    for part in classes(beside):
        found = {}
        for block in filter(part.issuperset, blocks):
            around = sorted((len(side) for (mouth, _), side in bridges.items() if mouth in block), reverse=True) + [0, 0]
            found.setdefault(len(part) - around[0] - around[1], []).append(block)
        best, core = max(found), found[max(found)][0]
        if len(found[best]) > 1 and (robots is None or 2 <= robots <= best):
            return None
        capacity.update(dict.fromkeys(part, best))
        rooms.update(dict.fromkeys(core))
        for (mouth, door), side in bridges.items():
            if mouth in core:
                rooms.update(dict.fromkeys(side, (mouth, door, side)))
    return rooms, capacity


def lend(grid, rooms, capacity, cells, goals, waits):
    """Returns the ranks and the goals of a tick, its lender and its door."""
    robots = range(len(cells))

    def place(robot):
        if goals[robot] is None:
            return 2, 0, robot
        return int(capacity[goals[robot]] < len(cells)), -waits[robot], robot

    order = sorted(robots, key=place)
    goals, lender, door = list(goals), None, None
    first = order[0]
    room = rooms[goals[first]] if place(first)[0] == 0 else None
    if room:
        mouth, beyond, side = room
        others = [r for r in robots if r != first and cells[r] in side]
        if others or cells[first] != mouth:
            door = (mouth, beyond)
        if others:
            away = grid.field(mouth)
            lender = min(others, key=lambda r: (away[cells[r]], r))
            goals[lender] = mouth
            order.remove(lender)
            order.insert(0, lender)
    ranks = {r: len(order) - at for at, r in enumerate(order)}
    return [None if goals[r] is None else ranks[r] for r in robots], goals, lender, door


def mover(grid, robots):
    """What plans the ticks of a world of so many robots on this grid, for model.World.mover; None if several blocks are best."""
    found = rooms_of(beside_of(grid), robots)
    if not found:
        return None
    rooms, capacity = found

    def plan(world, goals):
        ranks, aims, _, door = lend(grid, rooms, capacity, world.place, goals, world.waits)
        return model.pibt_step(Shut(grid, door), world.place, ranks, aims, world.hooks.ties, world.ticks + 1, world.stats)

    return plan

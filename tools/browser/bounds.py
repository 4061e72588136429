"""The bound on waits that a page may show, worked out from docs/VIEW.md and the traces alone."""
from reading import is_bridgeless_and_far


def distances(rows, start):
    """By cell, from one cell."""
    height, width = len(rows), len(rows[0])
    known = {start: 0}
    front = [start]
    while front:
        cells, front = front, []
        for cell in cells:
            row, column = divmod(cell, width)
            for y, x in ((row - 1, column), (row + 1, column), (row, column - 1), (row, column + 1)):
                other = y * width + x
                if 0 <= y < height and 0 <= x < width and rows[y][x] in '.GS' and other not in known:
                    known[other] = known[cell] + 1
                    front.append(other)
    return known


def advances(rows, before, after):
    """Whether the robot that has waited longest comes nearer to its goal, or is on it and stays."""
    eldest = before.eldest()
    if eldest is None:
        return True
    far = distances(rows, before.queues[eldest][0][2])
    old, new = before.cells[eldest], after.cells[eldest]
    return (far[old] == 0 and new == old) or far[new] == far[old] - 1


def bound_of(case):
    """`none` if there is none. No robot of these cases has waited when its first chapter opens."""
    free, far = is_bridgeless_and_far(case.rows)
    legal = all(verdict == 'legal' for verdict in case.verdicts)
    if not free or not legal or not all(advances(case.rows, *pair) for pair in zip(case.all_of, case.all_of[1:])):
        return 'none'
    return len(case.all_of[0].cells) * far

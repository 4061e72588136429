"""A map of 1,024 by 1,024 cells and a trace of 512 robots on it, each of which walks to and fro in a row of its own."""
import json

SIDE = 1024
ROBOTS = 512


def rows():
    """Walls at each 64th column of the rows between the robots' rows, so that there is something to see."""
    return [''.join('@' if row % 2 == 1 and column % 64 == 32 else '.' for column in range(SIDE)) for row in range(SIDE)]


def trace(ticks):
    """Each robot is sent to the end of its stretch, and to the other end when it arrives. Legal under the rules of traces."""
    start = [2 * robot * SIDE + (robot * 37) % (SIDE - 64) for robot in range(ROBOTS)]
    reach = [20 + robot % 40 for robot in range(ROBOTS)]
    ends = [(start[robot], start[robot] + reach[robot]) for robot in range(ROBOTS)]
    cells = list(start)
    goal = [None] * ROBOTS
    number = 0
    entries = []
    for tick in range(ticks):
        for robot in range(ROBOTS):
            if goal[robot] is None and (tick + robot) % 3 == 0:
                number += 1
                goal[robot] = (number, ends[robot][1] if cells[robot] == ends[robot][0] else ends[robot][0])
                entries.append(['take', 0, ['go', robot, goal[robot][1]], ['accepted', number]])
        arrived = []
        for robot in range(ROBOTS):
            if goal[robot] is None:
                continue
            cells[robot] += 1 if goal[robot][1] > cells[robot] else -1
            if cells[robot] == goal[robot][1]:
                arrived.append([robot, 0, goal[robot][0], 0])
                goal[robot] = None
        entries.append(['tick', list(cells), arrived, []])
    opening = {
        'clients': [[0, 0, 0, False]], 'life': 1000000, 'queue': 16,
        'robots': [[cell, False, None, [], [0, 0], [0, 0]] for cell in start], 'tick': 0,
    }
    return json.dumps({'chapter': 0, 'entries': entries, 'opening': opening, 'version': 2}, separators=(',', ':'))

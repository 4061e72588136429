"""An independent reading of traces: all figures that `fleet stats` prints, from the definitions in docs/STATS.md.

It shares no code with the program, and works in another way: it keeps every placement of a run, and looks up what an errand's robot
did between two ticks.
"""
import collections
import json

REFUSALS = ["client-closed", "no-robot", "robot-shut", "no-cell", "blocked", "unreachable", "queue-full", "life-spent", "no-errand",
            "too-late"]
MOST = 2 ** 64 - 1
WINDOW = 100


class Floor:
    def __init__(self, text):
        lines = text.replace("\r\n", "\n").split("\n")
        sides = dict(line.split()[:2] for line in lines[1:3])
        self.height, self.width = int(sides["height"]), int(sides["width"])
        rows = [line.rstrip(" \t") for line in lines[4:4 + self.height]]
        self.cells = {r * self.width + c for r, row in enumerate(rows) for c, letter in enumerate(row) if letter in ".GS"}

    def beside(self, cell):
        row, column = divmod(cell, self.width)
        near = [(row - 1, column), (row, column + 1), (row + 1, column), (row, column - 1)]
        return [r * self.width + c for r, c in near if 0 <= c < self.width and r * self.width + c in self.cells and r >= 0]

    def distance(self, start, goal):
        """Returns the length of a shortest way, or None."""
        far, front = {start: 0}, collections.deque([start])
        while front:
            cell = front.popleft()
            if cell == goal:
                return far[cell]
            for other in self.beside(cell):
                if other not in far:
                    far[other] = far[cell] + 1
                    front.append(other)
        return None

    def joins(self, a, b):
        """Says whether a way leads from a to b that does not use the edge between the two."""
        seen, todo = {a}, [a]
        while todo:
            cell = todo.pop()
            for other in self.beside(cell):
                if {cell, other} != {a, b} and other not in seen:
                    seen.add(other)
                    todo.append(other)
        return b in seen

    def is_bridgeless(self):
        return all(self.joins(cell, other) for cell in self.cells for other in self.beside(cell) if cell < other)


class Run:
    """Chapters that follow one another, as one run."""

    def __init__(self, traces):
        chapters = [json.loads(text) for text in traces]
        opening = chapters[0]["opening"]
        self.first_tick = opening["tick"]
        self.robots, self.clients = len(opening["robots"]), len(opening["clients"])
        self.places = [[robot[0] for robot in opening["robots"]]]
        # By robot: the errands in its queue, and when it began the first.
        self.queues = [[(c, n) for c, n, _ in robot[3]] for robot in opening["robots"]]
        # By client and number: where an errand leads.
        self.goals = {(c, n): cell for robot in opening["robots"] for c, n, cell in robot[3]}
        self.begun = [None if robot[2] is None else self.first_tick - robot[2] for robot in opening["robots"]]
        self.accepted, self.kinds, self.done, self.ticks = {}, collections.Counter(), [], []
        for chapter in chapters:
            for entry in chapter["entries"]:
                getattr(self, "see_" + entry[0])(*entry[1:])

    def clock(self):
        return self.first_tick + len(self.ticks)

    def see_shut(self, robot, stamp=None):
        pass

    def see_take(self, client, order, verdict):
        self.kinds[verdict[0] if verdict[0] != "refused" else verdict[1]] += 1
        if verdict[0] == "accepted":
            robot, name = order[1], (client, verdict[1])
            self.accepted[name] = self.clock()
            if not self.queues[robot]:
                self.begun[robot] = self.clock()
            self.queues[robot].append(name)
            self.goals[name] = order[2]
        if verdict[0] == "withdrawn":
            for queue in self.queues:
                if (client, order[1]) in queue:
                    queue.remove((client, order[1]))

    def see_tick(self, to, arrived, farewells):
        before, tick = self.places[-1], self.clock() + 1
        busy = [robot for robot in range(self.robots) if self.queues[robot]]
        self.ticks.append({
            "tick": tick,
            "arrivals": len(arrived),
            "moves": sum(a != b for a, b in zip(before, to)),
            "idle": self.robots - len(busy),
            "longest_wait": max((tick - 1 - self.begun[robot] for robot in busy), default=0),
            "stood": [to[robot] for robot in busy if before[robot] == to[robot]],
        })
        self.places.append(to)
        for robot, client, number, _ in arrived:
            assert self.queues[robot].pop(0) == (client, number)
            self.done.append((robot, client, number, to[robot], self.begun[robot], tick))
            self.begun[robot] = tick

    def rows(self, floor):
        """Returns the table of errands."""
        rows = []
        for robot, client, number, cell, begun, tick in self.done:
            if (client, number) in self.accepted:
                way = [place[robot] for place in self.places[begun - self.first_tick:tick - self.first_tick + 1]]
                rows.append({
                    "client": client, "number": number, "robot": robot, "cell": cell, "accepted": self.accepted[client, number],
                    "begun": begun, "arrived": tick, "from": way[0], "steps": sum(a != b for a, b in zip(way, way[1:])),
                    "distance": floor.distance(way[0], cell),
                })
        return rows

    def left_rows(self):
        """Returns the errands that are in a queue at the end."""
        return [
            {"client": client, "number": number, "robot": robot, "cell": self.goals[client, number], "accepted": self.accepted.get((client, number))}
            for robot, queue in enumerate(self.queues) for client, number in queue
        ]


def ratio(number, by):
    """Returns a quotient as it is printed, rounded down to thousandths."""
    return None if by == 0 else f"{number // by}.{number % by * 1000 // by:03d}"


def spread(name, numbers):
    """Returns the figures of numbers."""
    ordered, count = sorted(numbers), len(numbers)
    last = ordered[-1] if ordered else None
    return {
        name + "_mean": ratio(sum(numbers), count),
        name + "_median": ordered[(count - 1) // 2] if ordered else None,
        # the least that 9 of 10, and 99 of 100, do not exceed
        name + "_p90": next((x for x in ordered if 10 * sum(y <= x for y in ordered) >= 9 * count), None),
        name + "_p99": next((x for x in ordered if 100 * sum(y <= x for y in ordered) >= 99 * count), None),
        name + "_greatest": last,
    }


def delays(rows):
    """Returns the time beyond the distances, over the errands, and the time over the distances."""
    travel, distance = sum(row["arrived"] - row["begun"] for row in rows), sum(row["distance"] for row in rows)
    return {"delay": ratio(travel - distance, len(rows)), "delay_ratio": ratio(travel, distance)}


def later(floor, run, warm_up):
    """Returns the figures after a warm-up."""
    clock = run.first_tick + warm_up
    ticks = [tick for tick in run.ticks if tick["tick"] > clock]
    rows = [row for row in run.rows(floor) if row["arrived"] > clock]
    arrivals = sum(tick["arrivals"] for tick in ticks)
    found = {
        "ticks": len(ticks), "arrivals": arrivals, "throughput": ratio(arrivals, len(ticks)), "errands": len(rows),
        **spread("service", [row["arrived"] - row["accepted"] for row in rows]),
        "distance": sum(row["distance"] for row in rows), **delays(rows),
        "longest_wait": max((tick["longest_wait"] for tick in ticks), default=0),
    }
    return {name: None if value is None else str(value) for name, value in found.items()}


def figures(floor, run):
    """Returns all figures in their order, as texts; None for one that there is not."""
    rows, count = run.rows(floor), len(run.ticks)
    steps, distance = sum(row["steps"] for row in rows), sum(row["distance"] for row in rows)
    refused = {code: run.kinds[code] for code in range(1, 11)}
    limit = min(run.robots * max(1, len(floor.cells) - 1), MOST) if floor.is_bridgeless() else None
    found = {
        "robots": run.robots, "clients": run.clients, "floor_cells": len(floor.cells), "first_tick": run.first_tick, "ticks": count,
        "orders": sum(run.kinds.values()), "accepted": run.kinds["accepted"], "closed": run.kinds["closed"],
        "withdrawn": run.kinds["withdrawn"], "refused": sum(refused.values()),
        **{"refused_" + REFUSALS[code - 1]: number for code, number in refused.items()},
        "arrivals": len(run.done), "throughput": ratio(len(run.done), count),
        "unfinished": sum(map(len, run.queues)), "errands": len(rows),
        **spread("service", [row["arrived"] - row["accepted"] for row in rows]),
        **spread("travel", [row["arrived"] - row["begun"] for row in rows]),
        "steps": steps, "distance": distance, "detour": ratio(steps, distance), **delays(rows),
        "longest_wait": max((tick["longest_wait"] for tick in run.ticks), default=0), "wait_limit": limit,
        "idle_mean": ratio(sum(tick["idle"] for tick in run.ticks), count),
        "under_way": ratio(sum(run.robots - tick["idle"] for tick in run.ticks), sum(run.robots for _ in run.ticks)),
        "moves": sum(tick["moves"] for tick in run.ticks), "stands": sum(len(tick["stood"]) for tick in run.ticks),
    }
    return {name: None if value is None else str(value) for name, value in found.items()}


def windows(run):
    arrivals = [tick["arrivals"] for tick in run.ticks]
    return [sum(arrivals[start:start + WINDOW]) for start in range(0, len(arrivals), WINDOW)]


def as_text(floor, run):
    lines = [f"{name} {'none' if value is None else value}" for name, value in figures(floor, run).items()]
    return "\n".join([*lines, " ".join(["window_arrivals", *map(str, windows(run))])]) + "\n"


def as_json(floor, run):
    members = [f'"{name}":{"null" if value is None else value}' for name, value in figures(floor, run).items()]
    return "{" + ",".join(members) + ',"window_arrivals":[' + ",".join(map(str, windows(run))) + "]}\n"


def table(names, rows):
    lines = [",".join("" if row[name] is None else str(row[name]) for name in names) for row in rows]
    return "".join(line + "\n" for line in [",".join(names), *lines])


def as_later(warm_up):
    return lambda floor, run: "".join(f"{name} {'none' if value is None else value}\n" for name, value in later(floor, run, warm_up).items())


def as_later_json(warm_up):
    return lambda floor, run: "{" + ",".join(f'"{name}":{"null" if value is None else value}' for name, value in later(floor, run, warm_up).items()) + "}\n"


def as_errands(floor, run):
    return table(["client", "number", "robot", "cell", "accepted", "begun", "arrived", "from", "steps", "distance"], run.rows(floor))


def as_unfinished(_floor, run):
    return table(["client", "number", "robot", "cell", "accepted"], run.left_rows())


def by_owner(owner, floor, run):
    """Returns a table of what the errands of each robot, or client, add up to."""
    rows, left, count = run.rows(floor), run.left_rows(), run.robots if owner == "robot" else run.clients
    tallies = []
    for key in range(count):
        own = [row for row in rows if row[owner] == key]
        tallies.append({
            owner: key, "errands": len(own), "unfinished": sum(row[owner] == key for row in left),
            "service": sum(row["arrived"] - row["accepted"] for row in own), "travel": sum(row["arrived"] - row["begun"] for row in own),
            "steps": sum(row["steps"] for row in own), "distance": sum(row["distance"] for row in own),
        })
    return table([owner, "errands", "unfinished", "service", "travel", "steps", "distance"], tallies)


def as_robots(floor, run):
    return by_owner("robot", floor, run)


def as_clients(floor, run):
    return by_owner("client", floor, run)


def as_ticks(_floor, run):
    return table(["tick", "arrivals", "moves", "idle", "longest_wait"], run.ticks)


def as_cells(floor, run):
    stood = collections.Counter(cell for tick in run.ticks for cell in tick["stood"])
    rows = [{"cell": cell, "row": cell // floor.width, "column": cell % floor.width, "stands": stood[cell]} for cell in sorted(stood)]
    return table(["cell", "row", "column", "stands"], rows)


# the words after `fleet stats`, and what is printed for them
FORMS = {
    (): as_text,
    ("--json",): as_json,
    ("--warm-up", "0"): as_later(0),
    ("--warm-up", "7"): as_later(7),
    ("--json", "--warm-up", "20"): as_later_json(20),
    ("--csv", "errands"): as_errands,
    ("--csv", "unfinished"): as_unfinished,
    ("--csv", "robots"): as_robots,
    ("--csv", "clients"): as_clients,
    ("--csv", "ticks"): as_ticks,
    ("--csv", "cells"): as_cells,
}

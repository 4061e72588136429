"""What a page shows of a plan, of a trace and of an execution, worked out outside of the page."""
import json
import random

from placed import plan_run, trace_run


def conflicts_of(rows, places):
    """The lines of `fleet check --all`: by time, then by robot; of two robots by the one with the greater number."""
    width = len(rows[0])
    floor = [letter in '.GS' for row in rows for letter in row]
    near = lambda old, new: new == old or abs(new - old) == width or abs(new - old) == 1 and new // width == old // width
    lines = []
    for time_, place in enumerate(places):
        before = places[max(0, time_ - 1)]
        first = {}
        for robot, cell in enumerate(place):
            first.setdefault(cell, robot)
        for robot, cell in enumerate(place):
            here = floor[cell]
            if not here:
                lines.append(f'invalid {time_} off-floor {robot}')
            # a step is along floor cells, from one that may be anything
            if cell != before[robot] and not (near(before[robot], cell) and here and floor[before[robot]]):
                lines.append(f'invalid {time_} not-adjacent {robot}')
            if first[cell] < robot:
                lines.append(f'invalid {time_} vertex {first[cell]} {robot}')
            other = first.get(before[robot], robot)
            if other < robot and cell != before[robot] and before[other] == cell:
                lines.append(f'invalid {time_} swap {other} {robot}')
    return lines


def cells_text(width, places):
    """The plan in the form of pibt2."""
    return ''.join(f'{at}:{"".join(f"({cell % width},{cell // width})," for cell in place)}\n' for at, place in enumerate(places))


class Run:
    def __init__(self, rows, places):
        self.rows, self.places, self.kind = rows, places, 'plan'
        self.conflicts = conflicts_of(rows, places)
        self.text = plan_run(len(rows[0]), places, self.conflicts)
        self.file = cells_text(len(rows[0]), places)
        last = places[-1]
        stands = lambda robot: next((at + 1 for at in range(len(places) - 2, -1, -1) if places[at][robot] != last[robot]), 0)
        self.done = [stands(robot) for robot in range(len(last))]

    def shown(self, frame):
        at = min(frame, len(self.places) - 1)
        moves = sum(a != b for one, other in zip(self.places[:at], self.places[1:at + 1]) for a, b in zip(one, other))
        figures = {'robots': len(self.places[0]), 'steps': len(self.places) - 1, 'at their last cell': sum(done <= at for done in self.done),
                   'moves so far': moves, 'sum of costs': sum(self.done), 'makespan': max(self.done), 'conflicts': len(self.conflicts)}
        wrong = [','.join(line.split()[3:]) for line in self.conflicts[:20000] if int(line.split()[1]) == frame]
        return self.places[at], figures, ' '.join(wrong)


class TraceRun:
    def __init__(self, text):
        trace = json.loads(text)
        ticks = [entry for entry in trace['entries'] if entry[0] == 'tick']
        self.kind, self.text, self.file = 'trace', trace_run('legal', text), text + '\n'
        self.places = [[robot[0] for robot in trace['opening']['robots']], *(entry[1] for entry in ticks)]
        self.arrived = [0]
        for entry in ticks:
            self.arrived.append(self.arrived[-1] + len(entry[2]))

    def shown(self, frame):
        at = min(frame, len(self.places) - 1)
        return self.places[at], {'robots': len(self.places[0]), 'ticks': len(self.places) - 1, 'arrivals': self.arrived[at]}, ''


class LogRun:
    """An execution: each robot makes the moves of its plan in turn, each as long as chance has it. Times are whole numbers."""

    def __init__(self, places, seed):
        rng = random.Random(seed)
        count = len(places[0])
        self.kind, self.moves, lines = 'log', [], []
        for robot in range(count):
            now, own = 0, []
            for before, place in zip(places, places[1:]):
                if before[robot] == place[robot]:
                    continue
                begin = now + rng.randrange(3)
                now = begin + rng.choice([2, 2, 2, 3, 5])
                own.append((begin, now, before[robot], place[robot]))
            self.moves.append(own)
        for robot, own in enumerate(self.moves):
            for begin, end, old, new in own:
                lines += [(begin, 1, f'move {robot} {old} {new} 1'), (end, 0, f'reached {robot}')]
        lines.sort(key=lambda line: line[:2])
        self.file = ''.join(f'{at} {text}\n' for at, _, text in lines)
        self.text = f'log {len(self.file)}\n{self.file}'
        self.end = lines[-1][0]
        long = sorted(end - begin for own in self.moves for begin, end, _, _ in own)
        self.unit = long[len(long) // 2]
        self.places = [None] * (-(-self.end // self.unit) + 1)

    def shown(self, frame):
        now = min(self.end, frame * self.unit)
        cells = []
        for own in self.moves:
            begun = [move for move in own if move[0] <= now]
            # the cell that it leaves, while it is under way
            cells.append(own[0][2] if not begun else begun[-1][2] if begun[-1][1] > now else begun[-1][3])
        every = [move for own in self.moves for move in own]
        reached = sum(end <= now for _, end, _, _ in every)
        figures = {'robots': len(self.moves), 'moves': len(every), 'time': now, 'reached': reached,
                   'under way': sum(begin <= now for begin, _, _, _ in every) - reached, 'ends at': self.end}
        return cells, figures, ''


def spoilt(places, seed):
    """Some robots go astray: onto others, into each other's cells, far away."""
    rng = random.Random(seed)
    places = [list(place) for place in places]
    for _ in range(25):
        at, one, other = rng.randrange(len(places)), *rng.sample(range(len(places[0])), 2)
        for later in range(at, min(len(places), at + rng.randrange(1, 4))):
            places[later][one] = places[later][other] if rng.randrange(2) else places[max(0, at - 1)][other]
    return places

"""What stands before each tick of a trace, read entry by entry: a second reading, which shares nothing with the page's script."""
import collections
import json


class Standing:
    """What stands before one tick: after the tick before it, and all orders and shuts since."""

    def __init__(self, robots):
        self.cells = [robot[0] for robot in robots]
        self.queues = [[tuple(errand) for errand in robot[3]] for robot in robots]
        self.waits = [robot[2] for robot in robots]
        self.shut = [bool(robot[1]) for robot in robots]
        self.arrived = []
        self.arrivals = 0
        self.moves = 0
        self.notes = 0
        # the cells to which robots came in the tick before, and those on which robots with an errand stood
        self.came = []
        self.stood = []

    def copy(self):
        other = Standing([])
        other.cells = list(self.cells)
        other.queues = [list(queue) for queue in self.queues]
        other.waits = list(self.waits)
        other.shut = list(self.shut)
        other.arrived = []
        other.arrivals = self.arrivals
        other.moves = self.moves
        return other

    def take(self, client, order, verdict):
        if verdict[0] == 'accepted':
            _, robot, cell = order
            if not self.queues[robot]:
                self.waits[robot] = 0
            self.queues[robot].append((client, verdict[1], cell))
        elif verdict[0] == 'withdrawn':
            for queue in self.queues:
                queue[:] = [errand for errand in queue if errand[:2] != (client, order[1])]

    def tick(self, to, arrived):
        self.came = [new for old, new in zip(self.cells, to) if old != new]
        self.stood = [new for old, new, queue in zip(self.cells, to, self.queues) if old == new and queue]
        self.moves += len(self.came)
        self.cells = list(to)
        self.arrived = [arrival[0] for arrival in arrived]
        self.arrivals += len(arrived)
        self.waits = [None if wait is None else wait + 1 for wait in self.waits]
        for robot in self.arrived:
            del self.queues[robot][:1]
            self.waits[robot] = 0 if self.queues[robot] else None

    def eldest(self):
        waiting = [(-wait, robot) for robot, wait in enumerate(self.waits) if wait is not None]
        return min(waiting)[1] if waiting else None

    def shown(self):
        """As the page keeps it in the attributes of its body."""
        known = [wait for wait in self.waits if wait is not None]
        eldest = self.eldest()
        return {
            'cells': ' '.join(map(str, self.cells)),
            'goals': ' '.join(str(queue[0][2]) if queue else '-' for queue in self.queues),
            'queues': ' '.join(str(len(queue)) for queue in self.queues),
            'waits': ' '.join('-' if wait is None else str(wait) for wait in self.waits),
            'shut': ' '.join('1' if shut else '0' for shut in self.shut),
            'arrived': ' '.join(map(str, self.arrived)),
            'arrivals': str(self.arrivals),
            'unfinished': str(sum(map(len, self.queues))),
            'wait': str(max(known)) if known else 'none',
            'eldest': 'none' if eldest is None else str(eldest),
            'moves': str(self.moves),
        }


def heat_of(all_of, frame, kind, window):
    """How often robots came to each cell, or stood on it, in the last ticks up to a frame; in all ticks if the window is 0."""
    first = 0 if window == 0 else max(0, frame - window)
    counts = collections.Counter(cell for now in all_of[first + 1:frame + 1] for cell in getattr(now, kind))
    return ' '.join(f'{cell}:{counts[cell]}' for cell in sorted(counts))


def standings(texts):
    """What stands before each tick, by tick, then what stands at the end."""
    traces = [json.loads(text) for text in texts]
    now = Standing(traces[0]['opening']['robots'])
    clocks = [(0, traces[0]['opening']['tick'])]
    all_of = []
    for place, trace in enumerate(traces):
        if place > 0:
            clocks.append((len(all_of), trace['opening']['tick']))
            now.notes += 1
        for entry in trace['entries']:
            if entry[0] == 'tick':
                all_of.append(now)
                now = now.copy()
                now.tick(entry[1], entry[2])
                now.notes += len(entry[2]) + len(entry[3])
            elif entry[0] == 'take':
                now.take(*entry[1:])
                now.notes += 1
            else:
                now.shut[entry[1]] = True
                now.notes += 1
    all_of.append(now)
    return all_of, clocks


def conflicts_in(rows, before, after):
    """How many conflicts a step has: robots on no floor or on a cell of another one, too far away, and pairs that exchange their cells."""
    width = len(rows[0])
    if len(before) != len(after):
        return 1
    count = 0
    for robot, cell in enumerate(after):
        count += rows[cell // width][cell % width] not in '.GS' or cell in after[:robot]
        old = before[robot]
        count += abs(cell // width - old // width) + abs(cell % width - old % width) > 1
        count += cell != old and any((now, then) == (old, cell) for now, then in zip(after[robot + 1:], before[robot + 1:]))
    return count


def conflicts(rows, verdicts, texts):
    """The conflicts of the illegal chapters, by frame."""
    counts = collections.Counter()
    frame = 0
    for verdict, text in zip(verdicts, texts):
        trace = json.loads(text)
        cells = [robot[0] for robot in trace['opening']['robots']]
        for entry in trace['entries']:
            if entry[0] == 'tick':
                frame += 1
                counts[frame] += 0 if verdict == 'legal' else conflicts_in(rows, cells, entry[1])
                cells = entry[1]
    return counts


def is_bridgeless_and_far(rows):
    """Whether no edge of the floor is a bridge, each tried by leaving it out; and the greatest distance."""
    floor = {(y, x) for y, row in enumerate(rows) for x, letter in enumerate(row) if letter in '.GS'}

    def around(cell, without):
        y, x = cell
        for other in ((y - 1, x), (y + 1, x), (y, x - 1), (y, x + 1)):
            if other in floor and {cell, other} != without:
                yield other

    def distances(start, without=frozenset()):
        known = {start: 0}
        front = [start]
        while front:
            front = [other for cell in front for other in around(cell, without)
                     if other not in known and known.setdefault(other, known[cell] + 1)]
        return known

    far = 1
    for cell in floor:
        known = distances(cell)
        far = max(far, max(known.values()))
        for other in around(cell, frozenset()):
            if other > cell and other not in distances(cell, {cell, other}):
                return False, None
    return True, far

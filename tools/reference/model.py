#!/usr/bin/env python3
"""The program `errands` once more: an independent model in Python, written from the definitions and sharing no code with the program.

usage: tools/reference/model.py [WORDS..] < stdin

Takes the words of `errands` and answers as it does: output, error text, status. Standard library only. It is meant to be literal, not
fast. For status 2 the error text is clap's and is not modelled. `serve` answers its faults; a serve that runs depends on the schedule of
its threads and ends with status 99. `program(words, stdin, files)` returns (output, error text, status).
"""
import os
import sys
from collections import deque

U32 = 2 ** 32 - 1
U64 = 2 ** 64 - 1
FILE_MAX = 16_777_216
FLOOR = b".GS"
LETTERS = b".GS@OTW"
NORTH, EAST, SOUTH, WEST = 0, 1, 2, 3

sys.setrecursionlimit(20000)


# ---------------------------------------------------------------- lines
def split_lines(data, cr=True):
    """Lines end by LF or the end of the input; one CR directly before either
    is part of the line end.  Input that ends with a line end has no further
    line behind it."""
    pieces = data.split(b"\n")
    if pieces[-1] == b"":
        pieces.pop()
    if cr:
        pieces = [p[:-1] if p.endswith(b"\r") else p for p in pieces]
    return pieces


# ---------------------------------------------------------------- map
class MapFault(Exception):
    """args: ("header", line) ("size",) ("row", r) ("cell", r, c) ("trailing", line)"""

    def text(self):
        return "errands: map " + " ".join(str(a) for a in self.args)


def _side_line(line, word):
    """`height` space digits -> int, or None where not of that form."""
    if not line.startswith(word):
        return None
    rest = line[len(word):]
    digits = rest.lstrip(b" \t")
    if len(digits) == len(rest):
        return None                       # a space is one or more
    if digits == b"" or any(b not in b"0123456789" for b in digits):
        return None
    digits = digits.lstrip(b"0")
    if len(digits) > 12:                      # any over-large number: out of Size
        return 10 ** 12
    return int(digits or b"0")


def read_map(data):
    """-> (height, width, cells bytes) or MapFault, the first one."""
    limit = 1024
    lines = split_lines(data, cr=True)

    def header(n):
        if len(lines) < n:
            raise MapFault("header", n)
        line = lines[n - 1]
        return line.rstrip(b" \t")

    # line 1
    line = header(1)
    if not line.startswith(b"type"):
        raise MapFault("header", 1)
    rest = line[4:]
    word = rest.lstrip(b" \t")
    if len(word) == len(rest):
        raise MapFault("header", 1)
    if word == b"" or any(b in b" \t\r" for b in word):
        raise MapFault("header", 1)
    # lines 2, 3
    line = header(2)
    height = _side_line(line, b"height")
    width = None
    if height is None:
        width = _side_line(line, b"width")
    if height is None and width is None:
        raise MapFault("header", 2)
    line = header(3)
    if height is None:
        height = _side_line(line, b"height")
    else:
        width = _side_line(line, b"width")
    if height is None or width is None:
        raise MapFault("header", 3)
    # line 4
    if header(4) != b"map":
        raise MapFault("header", 4)
    # size
    if not (1 <= height <= limit and 1 <= width <= limit):
        raise MapFault("size")
    # rows
    cells = bytearray()
    for row in range(height):
        if len(lines) < 5 + row:
            raise MapFault("row", row)
        text = lines[4 + row]
        text = text.rstrip(b" \t")
        if len(text) != width:
            raise MapFault("row", row)
        for col in range(width):
            if text[col] not in LETTERS:
                raise MapFault("cell", row, col)
        cells += text
    # later lines
    for n in range(4 + height, len(lines)):
        if lines[n].strip(b" \t") != b"":
            raise MapFault("trailing", n + 1)
    return height, width, bytes(cells)


# ---------------------------------------------------------------- grid
class Grid:
    def __init__(self, height, width, cells):
        self.height, self.width, self.cells = height, width, cells
        self._part = None
        self._fields = {}
        self._neighbours = {}

    @staticmethod
    def of(rows):
        """rows: '../..' or a list of strings."""
        if isinstance(rows, str):
            rows = rows.split("/")
        return Grid(len(rows), len(rows[0]), "".join(rows).encode())

    def size(self):
        return self.height * self.width

    def is_floor(self, cell):
        return 0 <= cell < self.size() and self.cells[cell] in FLOOR

    def neighbour(self, cell, d):
        if not self.is_floor(cell):
            return None
        row, col = divmod(cell, self.width)
        row += (-1, 0, 1, 0)[d]
        col += (0, 1, 0, -1)[d]
        if not (0 <= row < self.height and 0 <= col < self.width):
            return None
        other = row * self.width + col
        return other if self.is_floor(other) else None

    def neighbours(self, cell):
        """[(direction, cell)] in order of direction."""
        if cell not in self._neighbours:
            found = [(d, self.neighbour(cell, d)) for d in range(4)]
            self._neighbours[cell] = [it for it in found if it[1] is not None]
        return self._neighbours[cell]

    def floor_count(self):
        return sum(1 for c in self.cells if c in FLOOR)

    def edges(self):
        """Edges (a, b), a < b, by increasing a then b."""
        out = []
        for a in range(self.size()):
            if self.is_floor(a):
                for d in (EAST, SOUTH):
                    b = self.neighbour(a, d)
                    if b is not None:
                        out.append((a, b))
        out.sort()
        return out

    def edge_count(self):
        return len(self.edges())

    def parts(self):
        if self._part is None:
            part = {}
            for s in range(self.size()):
                if self.is_floor(s) and s not in part:
                    part[s] = s
                    todo = [s]
                    while todo:
                        a = todo.pop()
                        for _, b in self.neighbours(a):
                            if b not in part:
                                part[b] = s
                                todo.append(b)
            self._part = part
        return self._part

    def same_part(self, a, b):
        p = self.parts()
        return p[a] == p[b]

    def field(self, goal):
        """dict cell -> least number of edges of a walk to goal."""
        f = self._fields.get(goal)
        if f is None:
            f = {goal: 0}
            todo = deque([goal])
            while todo:
                a = todo.popleft()
                for _, b in self.neighbours(a):
                    if b not in f:
                        f[b] = f[a] + 1
                        todo.append(b)
            if len(self._fields) > 4096:
                self._fields.clear()
            self._fields[goal] = f
        return f

    # no walk joins the ends without crossing the edge
    def is_bridge(self, a, b):
        seen = {a}
        todo = [a]
        while todo:
            x = todo.pop()
            for _, y in self.neighbours(x):
                if (x, y) in ((a, b), (b, a)) or y in seen:
                    continue
                if y == b:
                    return False
                seen.add(y)
                todo.append(y)
        return True

    def first_bridge(self):
        """The bridge of least lower cell, then least upper cell."""
        if self.size() <= 1024:
            for a, b in self.edges():
                if self.is_bridge(a, b):
                    return (a, b)
            return None
        br = self._bridges_low()
        return min(br) if br else None

    def _bridges_low(self):
        """All bridges by low points (for large maps), without recursion."""
        num, low, out = {}, {}, []
        count = 0
        for s in range(self.size()):
            if not self.is_floor(s) or s in num:
                continue
            num[s] = low[s] = count
            count += 1
            stack = [(s, -1, iter(self.neighbours(s)))]
            while stack:
                a, parent, it = stack[-1]
                for _, b in it:
                    if b == parent:
                        continue
                    if b in num:
                        low[a] = min(low[a], num[b])
                    else:
                        num[b] = low[b] = count
                        count += 1
                        stack.append((b, a, iter(self.neighbours(b))))
                        break
                else:
                    stack.pop()
                    if parent >= 0:
                        low[parent] = min(low[parent], low[a])
                        if low[a] > num[parent]:
                            out.append((min(a, parent), max(a, parent)))
        return out

    def bridges(self):
        if self.size() <= 1024:
            return [e for e in self.edges() if self.is_bridge(*e)]
        return sorted(self._bridges_low())


# ---------------------------------------------------------------- limits
LIMIT_DEFAULTS = dict(lane=64, outlet=64, queue=16, mailbox=64, life=1_000_000,
                      orders=1_000_000, clock=1_000_000, chapter=65_536, chapters=1_000)
LIMIT_RANGES = dict(lane=(1, 65_536), outlet=(1, 65_536), queue=(1, 65_536),
                    mailbox=(2, 65_536), life=(1, 2 ** 40), orders=(2, 2 ** 62),
                    clock=(1, 2 ** 48), chapter=(1, 16_777_216),
                    chapters=(1, 4_294_967_295))
U64_LIMITS = ("life", "orders", "clock")


def limits(**kw):
    out = dict(LIMIT_DEFAULTS)
    for k, v in kw.items():
        assert k in out
        out[k] = v
    return out


def limits_valid(lim):
    return all(LIMIT_RANGES[k][0] <= lim[k] <= LIMIT_RANGES[k][1] for k in LIMIT_RANGES)


# ---------------------------------------------------------------- names
REFUSALS = {1: "client-closed", 2: "no-robot", 3: "robot-shut", 4: "no-cell",
            5: "blocked", 6: "unreachable", 7: "queue-full", 8: "life-spent",
            9: "no-errand", 10: "too-late"}
CLIENT_CLOSED, NO_ROBOT, ROBOT_SHUT, NO_CELL, BLOCKED = 1, 2, 3, 4, 5
UNREACHABLE, QUEUE_FULL, LIFE_SPENT, NO_ERRAND, TOO_LATE = 6, 7, 8, 9, 10
OPENING = {1: "limits", 2: "no-robots", 3: "start", 4: "shared", 5: "hooks"}
TAKE_FAULT = {1: "mailbox-full", 2: "chapter-full"}
TICK_FAULT = {1: "clock-spent", 2: "chapter-full"}
SHUT_FAULT = {1: "no-robot", 2: "already", 3: "chapter-full"}
TRACE_FAULT = {1: "not-json", 2: "version", 3: "shape"}


class OpenFault(Exception):
    """args: code, then details"""


class TakeFault(Exception):
    """args: code"""


class TickFault(Exception):
    """args: code"""


class ShutFault(Exception):
    """args: code"""


class BookSpent(Exception):
    pass


# ---------------------------------------------------------------- hooks
class Hooks:
    """ties[r] = ((low, high), f(robot, cell, neighbour, dir, tick) -> rank)
    arrivals[r] = ((low, high), f(client, number, robot, cell, tick) -> stamp)
    farewells[r] = ((low, high), f(robot, cell, tick) -> stamp)"""

    def __init__(self, ties, arrivals, farewells):
        self.ties, self.arrivals, self.farewells = ties, arrivals, farewells


def plain_hooks(n):
    tie = (((0, 0, 0, 0), (0, 0, 0, 0)), lambda robot, cell, neighbour, d, tick: 0)
    arr = ((0, 0), lambda client, number, robot, cell, tick: 0)
    bye = ((0, 0), lambda robot, cell, tick: 0)
    return Hooks([tie] * n, [arr] * n, [bye] * n)


def south_hooks(n):
    tie = (((1, 1, 0, 1), (9, 9, 0, 9)),
           lambda robot, cell, neighbour, d, tick: 0 if d == SOUTH else 1)
    arr = ((0, 999), lambda client, number, robot, cell, tick: tick % 1000)
    bye = ((0, U32), lambda robot, cell, tick: cell)
    return Hooks([tie] * n, [arr] * n, [bye] * n)


# ---------------------------------------------------------------- PIBT
def priority_order(waits):
    """Robots with an errand before idle ones, then the greater wait, then the
    lesser number."""
    return sorted(range(len(waits)),
                  key=lambda r: (1, 0, r) if waits[r] is None else (0, -waits[r], r))


def pibt_step(grid, place, waits, goals, ties, tick, stats=None):
    """01 section 4, sentence by sentence.  goals[r]: cell or None (idle)."""
    n = len(place)
    reserved = [None] * n            # the cell that robot r has reserved, if decided
    counters = {"planned": 0, "given_up": 0, "invalid": 0, "depth": 0}

    def distance(i, cell):
        goal = place[i] if goals[i] is None else goals[i]
        return grid.field(goal)[cell]

    def plan(i, depth):
        counters["planned"] += 1
        counters["depth"] = max(counters["depth"], depth)
        # 1. the tie closure, once per floor neighbour, in order of direction
        rank = {}
        for d, cell in grid.neighbours(place[i]):
            rank[d] = ties[i][1](i, place[i], cell, d, tick)
            low, high = ties[i][0]
            assert low[d] <= rank[d] <= high[d]
        # 2. candidates
        cand = [(distance(i, cell), rank[d], d, cell) for d, cell in grid.neighbours(place[i])]
        own = distance(i, place[i])
        assert all(c[0] != own for c in cand)         # no odd cycle
        cand.append((own, -1, -1, place[i]))
        cand.sort()
        for _, _, _, cell in cand:
            # 3. skip
            if any(reserved[j] == cell for j in range(n) if j != i):
                continue
            if any(reserved[j] == place[i] and place[j] == cell
                   for j in range(n) if j != i):
                continue
            # 4. reserve
            reserved[i] = cell
            k = None
            for j in range(n):
                if j != i and reserved[j] is None and place[j] == cell:
                    k = j
            if k is not None:
                if not plan(k, depth + 1):
                    counters["given_up"] += 1
                    reserved[i] = None
                    continue
            return True
        # 5.
        reserved[i] = place[i]
        counters["invalid"] += 1
        return False

    for i in priority_order(waits):
        if reserved[i] is None:
            plan(i, 1)
    if stats is not None:
        for k, v in counters.items():
            stats[k] = max(stats.get(k, 0), v)
    return reserved


# ---------------------------------------------------------------- check_step
def check_step(grid, place, to):
    """None, or ("length",) ("off-floor", r) ("not-adjacent", r) ("vertex", i, j)
    ("swap", i, j): kinds in that order, then the least robot or pair."""
    if len(to) != len(place):
        return ("length",)
    n = len(to)
    for r in range(n):
        if not grid.is_floor(to[r]):
            return ("off-floor", r)
    for r in range(n):
        if to[r] != place[r] and to[r] not in [c for _, c in grid.neighbours(place[r])]:
            return ("not-adjacent", r)
    for i in range(n):
        for j in range(i + 1, n):
            if to[i] == to[j]:
                return ("vertex", i, j)
    for i in range(n):
        for j in range(i + 1, n):
            if to[i] == place[j] and to[j] == place[i]:
                return ("swap", i, j)
    return None


# ---------------------------------------------------------------- world
# Order:   ("go", robot, cell) ("close",) ("withdraw", number)
# Verdict: ("accepted", n) ("closed",) ("withdrawn",) ("refused", code)
# Notice:  ("verdict", seq, order_no, verdict)
#          ("arrived", seq, number, robot, cell, tick, stamp)
# Entry:   ("take", client, order, verdict)
#          ("tick", to, [(robot, client, number, stamp)], [(robot, stamp)])
#          ("shut", robot, stamp or None)
# Chapter: dict(chapter=, opening=dict(tick, queue, life, clients, robots), entries=[])
class World:
    def __init__(self, grid, starts, clients, lim, hooks=None, mover=None):
        if not limits_valid(lim) or not 1 <= clients <= 64:
            raise OpenFault(1)
        if not 1 <= len(starts) <= 512:
            raise OpenFault(2)
        for r, c in enumerate(starts):
            if not grid.is_floor(c):
                raise OpenFault(3, r)
        for i in range(len(starts)):
            for j in range(i + 1, len(starts)):
                if starts[i] == starts[j]:
                    raise OpenFault(4, i, j)
        if hooks is None:
            hooks = plain_hooks(len(starts))
        n = len(starts)
        if not len(hooks.ties) == len(hooks.arrivals) == len(hooks.farewells) == n:
            raise OpenFault(5)
        self.grid, self.lim, self.hooks = grid, dict(lim), hooks
        self.mover = mover                       # tests only: another planner
        self.place = list(starts)
        self.queues = [[] for _ in starts]       # errands (client, number, cell)
        self.waits = [None] * n                  # ticks, where there is a front
        self.is_shut = [False] * n
        self.said_farewell = [False] * n
        self.closed = [False] * clients
        self.taken = [0] * clients
        self.accepted = [0] * clients
        self.noticed = [0] * clients
        self.mail = [[] for _ in range(clients)]
        self.mail_limit = [lim["mailbox"]] * clients
        self.ticks = 0
        self.entries = []
        self.number = 0
        self.opening = self._opening()
        self._bridge = None
        self.stats = {}

    # -- history
    def _opening(self):
        robots = []
        for r in range(len(self.place)):
            a = self.hooks.arrivals[r][0]
            f = self.hooks.farewells[r][0]
            robots.append((self.place[r], self.is_shut[r], self.waits[r],
                           list(self.queues[r]), a, f))
        clients = [(self.taken[c], self.accepted[c], self.noticed[c], self.closed[c])
                   for c in range(len(self.closed))]
        return dict(tick=self.ticks, queue=self.lim["queue"], life=self.lim["life"],
                    clients=clients, robots=robots)

    def chapter(self):
        return dict(chapter=self.number, opening=self.opening, entries=self.entries)

    def chapter_full(self):
        return len(self.entries) == self.lim["chapter"]

    def next_chapter(self):
        if self.number + 1 >= self.lim["chapters"]:
            raise BookSpent()
        old = self.chapter()
        self.number += 1
        self.entries = []
        self.opening = self._opening()
        return old

    # -- reading
    def unfinished_of(self, client):
        return sum(1 for q in self.queues for e in q if e[0] == client)

    def eldest(self):
        best = None
        for r, w in enumerate(self.waits):
            if w is not None and (best is None or w > self.waits[best]):
                best = r
        return best

    def is_bridgeless(self):
        if self._bridge is None:
            self._bridge = (self.grid.first_bridge(),)
        return self._bridge[0] is None

    def is_idle(self):
        return all(not q for q in self.queues)

    def idle_within(self):
        if not self.is_bridgeless():
            return None
        return (max(len(q) for q in self.queues) * len(self.place)
                * max(1, self.grid.floor_count() - 1))

    def next_notice(self, client):
        return self.mail[client][0] if self.mail[client] else None

    def give(self, client):
        return self.mail[client].pop(0) if self.mail[client] else None

    def widen(self, client, extra):
        self.mail_limit[client] += extra

    # -- verdicts
    def verdict(self, c, order):
        if self.closed[c]:
            return ("refused", CLIENT_CLOSED)
        if order[0] == "close":
            return ("closed",)
        if order[0] == "withdraw":
            for q in self.queues:
                for place, e in enumerate(q):
                    if e[0] == c and e[1] == order[1]:
                        return ("refused", TOO_LATE) if place == 0 else ("withdrawn",)
            return ("refused", NO_ERRAND)
        _, r, cell = order
        if r >= len(self.place):
            return ("refused", NO_ROBOT)
        if self.is_shut[r]:
            return ("refused", ROBOT_SHUT)
        if cell >= self.grid.size():
            return ("refused", NO_CELL)
        if not self.grid.is_floor(cell):
            return ("refused", BLOCKED)
        if not self.grid.same_part(self.place[r], cell):
            return ("refused", UNREACHABLE)
        if len(self.queues[r]) == self.lim["queue"]:
            return ("refused", QUEUE_FULL)
        if self.accepted[c] == self.lim["life"]:
            return ("refused", LIFE_SPENT)
        return ("accepted", self.accepted[c] + 1)

    def take(self, c, order):
        if (len(self.mail[c]) + self.unfinished_of(c)
                                > self.mail_limit[c] - 2):
            raise TakeFault(1)
        if self.chapter_full():
            raise TakeFault(2)
        v = self.verdict(c, order)
        if v[0] == "accepted":
            _, r, cell = order
            self.accepted[c] += 1
            if not self.queues[r]:
                self.waits[r] = 0
            self.queues[r].append((c, v[1], cell))
        elif v[0] == "closed":
            self.closed[c] = True
        elif v[0] == "withdrawn":
            for q in self.queues:
                for place, e in enumerate(q):
                    if place > 0 and e[0] == c and e[1] == order[1]:
                        del q[place]
                        break
        self.taken[c] += 1
        self.entries.append(("take", c, order, v))
        self.noticed[c] += 1
        self.mail[c].append(("verdict", self.noticed[c], self.taken[c], v))
        return v

    def tick(self):
        if self.ticks == self.lim["clock"]:
            raise TickFault(1)
        if self.chapter_full():
            raise TickFault(2)
        tick = self.ticks + 1
        goals = [q[0][2] if q else None for q in self.queues]
        if self.mover is not None:
            to = self.mover(self, goals)
        else:
            to = pibt_step(self.grid, self.place, self.waits, goals, self.hooks.ties, tick,
                           self.stats)
        self.place = list(to)
        self.ticks = tick
        arrived, byes = [], []
        for r in range(len(to)):
            if self.queues[r] and self.queues[r][0][2] == to[r]:
                c, number, cell = self.queues[r].pop(0)
                stamp = 0
                (low, high), f = self.hooks.arrivals[r]
                stamp = f(c, number, r, cell, tick)
                assert low <= stamp <= high
                arrived.append((r, c, number, stamp))
                self.noticed[c] += 1
                self.mail[c].append(("arrived", self.noticed[c], number, r, cell, tick, stamp))
                self.waits[r] = 0 if self.queues[r] else None
            elif self.queues[r]:
                self.waits[r] += 1
        for r in range(len(to)):
            if self.is_shut[r] and not self.queues[r] and not self.said_farewell[r]:
                byes.append((r, self._farewell(r)))
        self.entries.append(("tick", list(to), arrived, byes))
        return tick, len(arrived), len(byes)

    def _farewell(self, r):
        self.said_farewell[r] = True
        (low, high), f = self.hooks.farewells[r]
        stamp = f(r, self.place[r], self.ticks)
        assert low <= stamp <= high
        return stamp

    def shut(self, r):
        if r >= len(self.place):
            raise ShutFault(1)
        if self.is_shut[r]:
            raise ShutFault(2)
        if self.chapter_full():
            raise ShutFault(3)
        self.is_shut[r] = True
        answer = None
        if not self.queues[r]:
            answer = self._farewell(r)
        self.entries.append(("shut", r, answer))
        return answer


# ---------------------------------------------------------------- run
# Event: ("post", c, order) ("take", c) ("tick",) ("give", c) ("collect", c) ("shut", r)
class Played:
    pass


def run(grid, starts, clients, lim, hooks, events, mover=None):
    w = World(grid, starts, clients, lim, hooks, mover)
    p = Played()
    p.world = w
    p.lanes = [[] for _ in range(clients)]
    p.outlets = [[] for _ in range(clients)]
    p.collected = [[] for _ in range(clients)]
    p.sent = [[] for _ in range(clients)]
    p.given = [[] for _ in range(clients)]
    p.replies = []
    for e in events:
        p.replies.append(_event(p, w, e, lim, clients))
    return p


def _event(p, w, e, lim, clients):
    kind = e[0]
    if kind in ("post", "take", "give", "collect") and e[1] >= clients:
        return ("no-client",)
    if kind == "post":
        _, c, order = e
        if len(p.lanes[c]) == lim["lane"]:
            return ("lane-full",)
        p.lanes[c].append(order)
        p.sent[c].append(order)
        return ("posted", len(p.sent[c]))
    if kind == "take":
        c = e[1]
        if not p.lanes[c]:
            return ("lane-empty",)
        try:
            v = w.take(c, p.lanes[c][0])
        except TakeFault as f:
            return ("take-refused", f.args[0])
        p.lanes[c].pop(0)
        return ("took", w.taken[c], v)
    if kind == "tick":
        try:
            return ("ticked",) + w.tick()
        except TickFault as f:
            return ("tick-refused", f.args[0])
    if kind == "shut":
        try:
            return ("shut-done", w.shut(e[1]))
        except ShutFault as f:
            return ("shut-refused", f.args[0])
    if kind == "give":
        c = e[1]
        if w.next_notice(c) is None:
            return ("nothing-pending",)
        if len(p.outlets[c]) == lim["outlet"]:
            return ("outlet-full",)
        notice = w.give(c)
        p.outlets[c].append(notice)
        p.given[c].append(notice)
        return ("gave", notice[1])
    if kind == "collect":
        c = e[1]
        if not p.outlets[c]:
            return ("nothing-there",)
        notice = p.outlets[c].pop(0)
        p.collected[c].append(notice)
        return ("collected", notice)
    raise AssertionError(kind)


# ---------------------------------------------------------------- script
class ScriptFault(Exception):
    """args: line"""


class Script:
    pass


def _number(word, top):
    """1 to 20 digits, at most 2^64 - 1, and it fits; else None."""
    if not 1 <= len(word) <= 20 or any(b not in b"0123456789" for b in word):
        return None
    v = int(word)
    if v > U64 or v > top:
        return None
    return v


def read_script(data):
    lines = split_lines(data, cr=True)
    s = Script()
    s.starts, s.clients, s.limits = None, 1, dict(LIMIT_DEFAULTS)
    s.south, s.turns, s.events, s.lines = False, 16, [], []
    seen = set()
    for n, text in enumerate(lines, 1):
        if text.startswith(b"#") or text.strip(b" \t") == b"":
            continue
        words = [w for w in text.replace(b"\t", b" ").split(b" ") if w != b""]
        _script_line(s, words, n, seen)
    if s.starts is None:
        raise ScriptFault(len(lines) + 1)
    return s


def _script_line(s, words, n, seen):
    head, rest = words[0].decode("latin-1"), words[1:]

    def need(v):
        if v is None:
            raise ScriptFault(n)
        return v

    def count(k):
        if len(rest) != k:
            raise ScriptFault(n)

    headers = {"robots", "clients"} | set(LIMIT_DEFAULTS)
    headers.add("ties")
    headers.add("turns")
    if head in headers:
        if s.events or head in seen:
            raise ScriptFault(n)
        seen.add(head)
        if head == "robots":
            if not 1 <= len(rest) <= 16:
                raise ScriptFault(n)
            s.starts = [need(_number(w, U32)) for w in rest]
        elif head == "clients":
            count(1)
            s.clients = need(_number(rest[0], U32))
        elif head == "ties":
            count(1)
            if rest[0] not in (b"plain", b"south"):
                raise ScriptFault(n)
            s.south = rest[0] == b"south"
        elif head == "turns":
            count(1)
            v = need(_number(rest[0], U32))
            if not 1 <= v <= 1_000_000:
                raise ScriptFault(n)
            s.turns = v
        else:
            count(1)
            s.limits[head] = need(_number(rest[0], U64 if head in U64_LIMITS else U32))
        return

    def event(e):
        s.events.append(e)
        s.lines.append(n)

    if head == "post" and len(rest) >= 2:
        c = need(_number(rest[0], U32))
        what = rest[1]
        if what == b"go" and len(rest) == 4:
            return event(("post", c, ("go", need(_number(rest[2], U32)),
                                      need(_number(rest[3], U32)))))
        if what == b"close" and len(rest) == 2:
            return event(("post", c, ("close",)))
        if what == b"withdraw" and len(rest) == 3:
            return event(("post", c, ("withdraw", need(_number(rest[2], U64)))))
        raise ScriptFault(n)
    if head in ("take", "give", "collect") and len(rest) == 1:
        return event((head, need(_number(rest[0], U32))))
    if head == "tick" and len(rest) <= 1:
        times = 1
        if rest:
            times = need(_number(rest[0], U64))
            if not 1 <= times <= 1_000_000:
                raise ScriptFault(n)
        for _ in range(times):
            event(("tick",))
        return
    if head == "shut" and len(rest) == 1:
        return event(("shut", need(_number(rest[0], U32))))
    raise ScriptFault(n)


# ---------------------------------------------------------------- output
def verdict_text(v):
    if v[0] == "accepted":
        return f"accepted {v[1]}"
    if v[0] == "refused":
        return f"refused {v[1]} {REFUSALS[v[1]]}"
    return v[0]


def event_lines(event, reply, entry):
    """The lines of one event; entry is the entry that it appended, if any."""
    kind = event[0]
    if reply[0] == "no-client":
        return [f"no-client {event[1]}"]
    if kind == "post":
        c = event[1]
        return [f"posted {c} {reply[1]}" if reply[0] == "posted" else f"lane-full {c}"]
    if kind == "take":
        c = event[1]
        if reply[0] == "took":
            return [f"took {c} {reply[1]} {verdict_text(reply[2])}"]
        if reply[0] == "lane-empty":
            return [f"lane-empty {c}"]
        return [f"take-refused {c} {reply[1]} {TAKE_FAULT[reply[1]]}"]
    if kind == "tick":
        if reply[0] == "tick-refused":
            return [f"tick-refused {reply[1]} {TICK_FAULT[reply[1]]}"]
        _, to, arrived, byes = entry
        out = [f"tick {reply[1]}: " + " ".join(str(c) for c in to)]
        for r, c, number, stamp in arrived:
            out.append(f"arrived robot {r} client {c} number {number} cell {to[r]} stamp {stamp}")
        for r, stamp in byes:
            out.append(f"farewell robot {r} stamp {stamp}")
        return out
    if kind == "give":
        c = event[1]
        return [{"gave": f"gave {c} {reply[1] if len(reply) > 1 else ''}",
                 "nothing-pending": f"nothing {c}",
                 "outlet-full": f"outlet-full {c}"}[reply[0]]]
    if kind == "collect":
        c = event[1]
        if reply[0] == "nothing-there":
            return [f"none {c}"]
        k = reply[1]
        if k[0] == "verdict":
            return [f"collected {c} {k[1]} verdict {k[2]} {verdict_text(k[3])}"]
        return [f"collected {c} {k[1]} arrived {k[2]} robot {k[3]} cell {k[4]} "
                f"tick {k[5]} stamp {k[6]}"]
    if kind == "shut":
        r = event[1]
        if reply[0] == "shut-refused":
            return [f"shut-refused {r} {reply[1]} {SHUT_FAULT[reply[1]]}"]
        out = [f"shut {r}"]
        if entry[2] is not None:
            out.append(f"farewell robot {r} stamp {entry[2]}")
        return out
    raise AssertionError(kind)


def limit_met(replies):
    """A limit was met: ClockSpent or ChapterFull."""
    return any(r in (("take-refused", 2), ("tick-refused", 1), ("tick-refused", 2),
                     ("shut-refused", 3)) for r in replies)


def run_text(events, played):
    """Lines per event, with the entries that the events appended."""
    out, at = [], 0
    entries = played.world.entries
    for e, r in zip(events, played.replies):
        entry = None
        if r[0] in ("took", "ticked", "shut-done"):
            entry = entries[at]
            at += 1
        out.extend(event_lines(e, r, entry))
    assert at == len(entries)
    return "".join(line + "\n" for line in out)


# ---------------------------------------------------------------- trace
def _compact(v):
    if v is True:
        return "true"
    if v is False:
        return "false"
    if v is None:
        return "null"
    if isinstance(v, int):
        return str(v)
    if isinstance(v, str):
        return '"' + v + '"'
    if isinstance(v, (list, tuple)):
        return "[" + ",".join(_compact(x) for x in v) + "]"
    if isinstance(v, dict):
        return "{" + ",".join('"' + k + '":' + _compact(v[k])
                              for k in sorted(v, key=lambda k: k.encode())) + "}"
    raise AssertionError(v)


def chapter_value(ch):
    entries = []
    for e in ch["entries"]:
        if e[0] == "take":
            entries.append(["take", e[1], list(e[2]), list(e[3])])
        elif e[0] == "tick":
            entries.append(["tick", e[1], e[2], e[3]])
        else:
            entries.append(["shut", e[1]] + ([] if e[2] is None else [e[2]]))
    return {"chapter": ch["chapter"], "entries": entries, "opening": ch["opening"],
            "version": 2}


def write_trace(ch):
    return _compact(chapter_value(ch))


class NotJson(Exception):
    pass


class Float:
    """A JSON number that is neither a u64 nor an i64."""

    def __init__(self, v):
        self.v = v


def read_json(data):
    """serde_json into a Value: UTF-8, RFC 8259, nesting at most 127, the last of
    equal keys stays, no trailing data.  -> None, bool, int, Float, str, list, dict"""
    try:
        text = data.decode("utf-8", "strict")
    except UnicodeDecodeError:
        raise NotJson()
    pos = 0
    end = len(text)

    def space():
        nonlocal pos
        while pos < end and text[pos] in " \t\n\r":
            pos += 1

    def need(c):
        nonlocal pos
        if pos < end and text[pos] == c:
            pos += 1
        else:
            raise NotJson()

    def string():
        nonlocal pos
        need('"')
        out = []
        while True:
            if pos >= end:
                raise NotJson()
            c = text[pos]
            pos += 1
            if c == '"':
                return "".join(out)
            if ord(c) < 0x20:
                raise NotJson()
            if c != "\\":
                out.append(c)
                continue
            if pos >= end:
                raise NotJson()
            c = text[pos]
            pos += 1
            if c in '"\\/':
                out.append(c)
            elif c in "bfnrt":
                out.append({"b": "\b", "f": "\f", "n": "\n", "r": "\r", "t": "\t"}[c])
            elif c == "u":
                u = hex4()
                if 0xDC00 <= u <= 0xDFFF:
                    raise NotJson()
                if 0xD800 <= u <= 0xDBFF:
                    if text[pos:pos + 2] != "\\u":
                        raise NotJson()
                    pos += 2
                    v = hex4()
                    if not 0xDC00 <= v <= 0xDFFF:
                        raise NotJson()
                    u = 0x10000 + ((u - 0xD800) << 10) + (v - 0xDC00)
                out.append(chr(u))
            else:
                raise NotJson()

    def hex4():
        nonlocal pos
        h = text[pos:pos + 4]
        if len(h) != 4 or any(x not in "0123456789abcdefABCDEF" for x in h):
            raise NotJson()
        pos += 4
        return int(h, 16)

    def digits():
        nonlocal pos
        start = pos
        while pos < end and text[pos] in "0123456789":
            pos += 1
        if pos == start:
            raise NotJson()

    def number():
        nonlocal pos
        start = pos
        neg = text[pos] == "-"
        if neg:
            pos += 1
        if pos < end and text[pos] == "0":
            pos += 1
            if pos < end and text[pos] in "0123456789":
                raise NotJson()
        else:
            digits()
        whole = text[start:pos]
        is_int = True
        if pos < end and text[pos] == ".":
            is_int = False
            pos += 1
            digits()
        if pos < end and text[pos] in "eE":
            is_int = False
            pos += 1
            if pos < end and text[pos] in "+-":
                pos += 1
            digits()
        if is_int:
            big = len(whole) > 25
            if not big:
                v = int(whole)
                if not neg and v <= U64:
                    return v
                if neg and v != 0 and v >= -2 ** 63:
                    return v
        f = float(text[start:pos])
        if f in (float("inf"), float("-inf")):
            raise NotJson()                      # a number out of range is refused
        return Float(f)

    def value(depth):
        nonlocal pos
        space()
        if pos >= end:
            raise NotJson()
        c = text[pos]
        if c == "{":
            if depth == 127:
                raise NotJson()
            pos += 1
            out = {}
            space()
            if pos < end and text[pos] == "}":
                pos += 1
                return out
            while True:
                space()
                k = string()
                space()
                need(":")
                out[k] = value(depth + 1)
                space()
                if pos < end and text[pos] == ",":
                    pos += 1
                    continue
                need("}")
                return out
        if c == "[":
            if depth == 127:
                raise NotJson()
            pos += 1
            out = []
            space()
            if pos < end and text[pos] == "]":
                pos += 1
                return out
            while True:
                out.append(value(depth + 1))
                space()
                if pos < end and text[pos] == ",":
                    pos += 1
                    continue
                need("]")
                return out
        if c == '"':
            return string()
        if c == "-" or c in "0123456789":
            return number()
        for word, v in (("true", True), ("false", False), ("null", None)):
            if text.startswith(word, pos):
                pos += len(word)
                return v
        raise NotJson()

    v = value(0)
    space()
    if pos != end:
        raise NotJson()
    return v


class TraceFault(Exception):
    """args: code 1 NotJson, 2 Version, 3 Shape"""


def read_trace(data):
    try:
        v = read_json(data)
    except NotJson:
        raise TraceFault(1)
    known = (1, 2)

    def is_int(x):
        return isinstance(x, int) and not isinstance(x, bool)

    if not isinstance(v, dict) or "version" not in v or not is_int(v["version"]):
        raise TraceFault(3)
    version = v["version"]
    if version not in known:
        raise TraceFault(2)

    def shape(ok):
        if not ok:
            raise TraceFault(3)

    def num(x, top):
        shape(is_int(x) and 0 <= x <= top)
        return x

    def arr(x, n=None):
        shape(isinstance(x, list) and (n is None or len(x) == n))
        return x

    def keys(x, names):
        shape(isinstance(x, dict) and set(x) == set(names))
        return x

    def boolean(x):
        shape(isinstance(x, bool))
        return x

    keys(v, ("chapter", "entries", "opening", "version"))
    number = num(v["chapter"], U32)
    o = keys(v["opening"], ("clients", "life", "queue", "robots", "tick"))
    clients = []
    for c in arr(o["clients"]):
        arr(c, 4)
        clients.append((num(c[0], U64), num(c[1], U64), num(c[2], U64), boolean(c[3])))
    robots = []
    for r in arr(o["robots"]):
        arr(r, 6)
        errands = []
        for e in arr(r[3]):
            arr(e, 3)
            errands.append((num(e[0], U32), num(e[1], U64), num(e[2], U32)))
        laws = []
        for law in (r[4], r[5]):
            arr(law, 2)
            laws.append((num(law[0], U32), num(law[1], U32)))
        robots.append((num(r[0], U32), boolean(r[1]),
                       None if r[2] is None else num(r[2], U64), errands, laws[0], laws[1]))
    opening = dict(tick=num(o["tick"], U64), queue=num(o["queue"], U32),
                   life=num(o["life"], U64), clients=clients, robots=robots)
    entries = []
    for e in arr(v["entries"]):
        arr(e)
        shape(len(e) >= 1 and isinstance(e[0], str))
        if e[0] == "take":
            arr(e, 4)
            c = num(e[1], U32)
            q = arr(e[2])
            shape(len(q) >= 1)
            if q[0] == "go":
                arr(q, 3)
                order = ("go", num(q[1], U32), num(q[2], U32))
            elif q[0] == "close":
                arr(q, 1)
                order = ("close",)
            elif q[0] == "withdraw" and version == 2:
                arr(q, 2)
                order = ("withdraw", num(q[1], U64))
            else:
                shape(False)
            q = arr(e[3])
            shape(len(q) >= 1)
            if q[0] == "accepted":
                arr(q, 2)
                verdict = ("accepted", num(q[1], U64))
            elif q[0] == "closed":
                arr(q, 1)
                verdict = ("closed",)
            elif q[0] == "withdrawn" and version == 2:
                arr(q, 1)
                verdict = ("withdrawn",)
            elif q[0] == "refused":
                arr(q, 2)
                shape(is_int(q[1]) and 1 <= q[1] <= (10 if version == 2 else 8))
                verdict = ("refused", q[1])
            else:
                shape(False)
            entries.append(("take", c, order, verdict))
        elif e[0] == "tick":
            arr(e, 4)
            to = [num(x, U32) for x in arr(e[1])]
            arrived = []
            for a in arr(e[2]):
                arr(a, 4)
                arrived.append((num(a[0], U32), num(a[1], U32), num(a[2], U64), num(a[3], U32)))
            byes = []
            for b in arr(e[3]):
                arr(b, 2)
                byes.append((num(b[0], U32), num(b[1], U32)))
            entries.append(("tick", to, arrived, byes))
        elif e[0] == "shut":
            shape(len(e) in (2, 3))
            entries.append(("shut", num(e[1], U32), num(e[2], U32) if len(e) == 3 else None))
        else:
            shape(False)
    return dict(chapter=number, opening=opening, entries=entries)


# ---------------------------------------------------------------- judge
COUNT_TOP = 2 ** 57


def opening_in_order(grid, o):
    robots, clients = o["robots"], o["clients"]
    if not 1 <= len(robots) <= 512 or not 1 <= len(clients) <= 64:
        return False
    if not LIMIT_RANGES["queue"][0] <= o["queue"] <= LIMIT_RANGES["queue"][1]:
        return False
    if not LIMIT_RANGES["life"][0] <= o["life"] <= LIMIT_RANGES["life"][1]:
        return False
    cells = [r[0] for r in robots]
    if not all(grid.is_floor(c) for c in cells) or len(set(cells)) != len(cells):
        return False
    # counts first, so that the sums below are without overflow
    for taken, accepted, noticed, closed in clients:
        if taken > COUNT_TOP or accepted > COUNT_TOP or noticed > COUNT_TOP:
            return False
    named = set()
    unfinished = [0] * len(clients)
    for cell, shut, wait, errands, arrival_law, farewell_law in robots:
        if arrival_law[0] > arrival_law[1] or farewell_law[0] > farewell_law[1]:
            return False
        if (wait is not None) != bool(errands):
            return False
        if wait is not None and wait > o["tick"]:
            return False
        if len(errands) > o["queue"]:
            return False
        last = {}
        for c, number, goal in errands:
            if c >= len(clients) or not 1 <= number <= clients[c][1]:
                return False
            if not grid.is_floor(goal) or not grid.same_part(cell, goal):
                return False
            if (c, number) in named:
                return False
            named.add((c, number))
            if number <= last.get(c, 0):
                return False
            last[c] = number
            unfinished[c] += 1
    for c, (taken, accepted, noticed, closed) in enumerate(clients):
        if accepted > taken or accepted > o["life"]:
            return False
        if closed and taken <= accepted:
            return False
        top = taken + accepted - unfinished[c]
        if not taken <= noticed <= top:
            return False
    return True


def judge(grid, ch):
    """None where legal, else (at, rule)."""
    o = ch["opening"]
    if not opening_in_order(grid, o):
        return (0, 1)
    place = [r[0] for r in o["robots"]]
    is_shut = [r[1] for r in o["robots"]]
    queues = [list(r[3]) for r in o["robots"]]
    arrival_law = [r[4] for r in o["robots"]]
    farewell_law = [r[5] for r in o["robots"]]
    had = [r[1] and not r[3] for r in o["robots"]]
    accepted = [c[1] for c in o["clients"]]
    closed = [c[3] for c in o["clients"]]

    def verdict(c, order):
        if closed[c]:
            return ("refused", CLIENT_CLOSED)
        if order[0] == "close":
            return ("closed",)
        if order[0] == "withdraw":
            for q in queues:
                for at, e in enumerate(q):
                    if e[:2] == (c, order[1]):
                        return ("refused", TOO_LATE) if at == 0 else ("withdrawn",)
            return ("refused", NO_ERRAND)
        _, r, cell = order
        if r >= len(place):
            return ("refused", NO_ROBOT)
        if is_shut[r]:
            return ("refused", ROBOT_SHUT)
        if cell >= grid.size():
            return ("refused", NO_CELL)
        if not grid.is_floor(cell):
            return ("refused", BLOCKED)
        if not grid.same_part(place[r], cell):
            return ("refused", UNREACHABLE)
        if len(queues[r]) == o["queue"]:
            return ("refused", QUEUE_FULL)
        if accepted[c] == o["life"]:
            return ("refused", LIFE_SPENT)
        return ("accepted", accepted[c] + 1)

    for at, e in enumerate(ch["entries"], 1):
        if e[0] == "take":
            _, c, order, v = e
            if c >= len(closed):
                return (at, 2)
            if v != verdict(c, order):
                return (at, 3)
            if v[0] == "accepted":
                accepted[c] += 1
                queues[order[1]].append((c, v[1], order[2]))
            elif v[0] == "closed":
                closed[c] = True
            elif v[0] == "withdrawn":
                for q in queues:
                    q[:] = [x for i, x in enumerate(q) if i == 0 or x[:2] != (c, order[1])]
        elif e[0] == "tick":
            _, to, arrived, byes = e
            if check_step(grid, place, to) is not None:
                return (at, 4)
            due = [(r, q[0][0], q[0][1]) for r, q in enumerate(queues) if q and q[0][2] == to[r]]
            if [a[:3] for a in arrived] != due:
                return (at, 5)
            for r, _, _ in due:
                queues[r].pop(0)
            leave = [r for r in range(len(place)) if is_shut[r] and not queues[r] and not had[r]]
            if [b[0] for b in byes] != leave:
                return (at, 6)
            for r in leave:
                had[r] = True
            if any(not arrival_law[a[0]][0] <= a[3] <= arrival_law[a[0]][1] for a in arrived):
                return (at, 7)
            if any(not farewell_law[b[0]][0] <= b[1] <= farewell_law[b[0]][1] for b in byes):
                return (at, 7)
            place = list(to)
        else:
            _, r, stamp = e
            if r >= len(place) or is_shut[r]:
                return (at, 8)
            if (stamp is not None) != (not queues[r]):
                return (at, 6)
            if stamp is not None and not farewell_law[r][0] <= stamp <= farewell_law[r][1]:
                return (at, 7)
            is_shut[r] = True
            if stamp is not None:
                had[r] = True
    return None


# ---------------------------------------------------------------- program
class Stop(Exception):
    """args: status, line or None (clap's text)"""


NOT_MODELLED = 99


def parse_words(words):
    """-> ("bundle",) ("map", f) ("run", trace, m, s) ("judge", m, t) ("serve", m, s)"""
    if not words:
        return ("bundle",)
    head, rest = words[0], words[1:]
    flags, files, raw = 0, [], False
    allowed = {"map": 1, "run": 2}
    allowed.update(judge=2, serve=2)
    if head not in allowed:
        raise Stop(2, None)
    for w in rest:
        if not raw and w == "--":
            raw = True
        elif not raw and w == "--trace" and head == "run":
            flags += 1
        elif not raw and w.startswith("-") and w != "-":
            raise Stop(2, None)
        else:
            files.append(w)
    if len(files) != allowed[head] or flags > 1:
        raise Stop(2, None)
    if head == "run":
        return ("run", flags == 1) + tuple(files)
    return (head,) + tuple(files)


def _whole(data):
    if data is None or len(data) > FILE_MAX:
        raise Stop(3, "errands: file")
    return data


def _load(path):
    try:
        with open(path, "rb") as f:
            return f.read(FILE_MAX + 1)
    except OSError:
        raise Stop(3, "errands: file")


def split_bundle(data):
    """-> (map bytes, script bytes) or None, at the first line that is `script`."""
    at = 0
    lines = split_lines(data, cr=True)
    raw = data.split(b"\n")
    for n, line in enumerate(lines):
        if line == b"script":
            return data[:at], data[at + len(raw[n]) + 1:]
        at += len(raw[n]) + 1
    return None


def _map(data):
    try:
        return Grid(*read_map(data))
    except MapFault as f:
        raise Stop(4, f.text())


def _script(data):
    try:
        return read_script(data)
    except ScriptFault as f:
        raise Stop(5, f"errands: script {f.args[0]}")


def _hooks(s):
    return (south_hooks if s.south else plain_hooks)(len(s.starts))


def _run(grid, s, trace):
    try:
        p = run(grid, s.starts, s.clients, s.limits, _hooks(s), s.events)
    except OpenFault as f:
        raise Stop(5, f"errands: opening {f.args[0]} {OPENING[f.args[0]]}")
    if trace:
        out = write_trace(p.world.chapter()) + "\n"
    else:
        out = run_text(s.events, p)
    if limit_met(p.replies):
        return out, "errands: limit\n", 8
    return out, "", 0


def serve_script_check(s):
    """Whether there are only post and collect lines with a client in range."""
    for e, n in zip(s.events, s.lines):
        if e[0] not in ("post", "collect") or e[1] >= s.clients:
            raise Stop(5, f"errands: script {n}")


def program(words, stdin=b"", files=None):
    """-> (stdout str, stderr str or None, status).  `files`: dict path -> bytes or
    None (cannot be read) in place of the real files.  stdin: bytes, or a function."""
    try:
        return _program(words, stdin, files)
    except Stop as f:
        status, line = f.args
        return "", None if line is None else line + "\n", status


def _program(words, stdin, files):
    job = parse_words(words)

    def load(path):
        if files is not None:
            return _whole(files.get(path))
        return _whole(_load(path))

    if job[0] == "bundle":
        data = _whole(stdin() if callable(stdin) else stdin)
        parts = split_bundle(data)
        if parts is None:
            raise Stop(5, f"errands: script {len(split_lines(data, cr=True)) + 1}")
        grid = _map(parts[0])
        return _run(grid, _script(parts[1]), False)
    if job[0] == "map":
        grid = _map(load(job[1]))
        out = f"size {grid.height} {grid.width}\nfloor {grid.floor_count()}\nedges {grid.edge_count()}\n"
        b = grid.first_bridge()
        out += "bridgeless\n" if b is None else f"bridge {b[0]} {b[1]}\n"
        return out, "", 0
    first, second = load(job[-2]), load(job[-1])
    grid = _map(first)
    if job[0] == "run":
        return _run(grid, _script(second), job[1])
    if job[0] == "judge":
        try:
            ch = read_trace(second)
        except TraceFault as f:
            raise Stop(6, f"errands: trace {f.args[0]} {TRACE_FAULT[f.args[0]]}")
        found = judge(grid, ch)
        if found is None:
            return "legal\n", "", 0
        return f"illegal {found[0]} {found[1]}\n", "", 6
    # serve: script, its further rule, opening; the rest is concurrent
    s = _script(second)
    serve_script_check(s)
    try:
        World(grid, s.starts, s.clients, s.limits, _hooks(s))
    except OpenFault as f:
        raise Stop(5, f"errands: opening {f.args[0]} {OPENING[f.args[0]]}")
    return "", "", NOT_MODELLED


def main(argv):
    if argv == ["--help"]:
        print(__doc__.strip())
        return 0
    out, err, status = program(argv, lambda: sys.stdin.buffer.read(FILE_MAX + 1))
    sys.stdout.write(out)
    sys.stdout.flush()
    sys.stderr.write(err if err is not None else "(text of clap)\n")
    return status


if __name__ == "__main__":
    sys.exit(main(sys.argv[1:]))

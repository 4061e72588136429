"""Checks of laws over a map and a history, for tools/reference/fuzz. Deliberately naive; shares no
code with model.py.  Maps are lists of strings, histories are trace values
as plain JSON data (lists, ints, None).

    m = Map(rows)
    out = check_chapter(m, trace, tie_laws=None)   -> [(at, rule, text)]
    out = check_run(m, case, events, replies, trace, lists)  -> [text]

Rules 1 to 8 are those of the judge; the others are names:
advancing, passes-free-cell, wanders, eldest-advances, way-ahead, tie-order, wait-bound, wait-invariant, arrives-in-turn, idle-within, prefix.
Advancing, the bounds and idle-within are asked on maps without bridges, and wherever all errands go to roomy cells.
"""

REFUSED = dict(client_closed=1, no_robot=2, robot_shut=3, no_cell=4, blocked=5,
               unreachable=6, queue_full=7, life_spent=8, no_errand=9, too_late=10)


class Map:
    def __init__(self, rows):
        if isinstance(rows, str):
            rows = rows.split("/")
        self.h, self.w = len(rows), len(rows[0])
        self.floor = set()
        for y in range(self.h):
            for x in range(self.w):
                if rows[y][x] in ".GS":
                    self.floor.add(y * self.w + x)
        self.size = self.h * self.w
        self._near = {}
        self._dist = {}
        self._bridge = {}
        self._bridgeless = None
        self._sides = {}
        self._span = None

    def dirs(self, a):
        """{direction: neighbour}"""
        if a not in self._near:
            y, x = a // self.w, a % self.w
            out = {}
            for d, (dy, dx) in enumerate([(-1, 0), (0, 1), (1, 0), (0, -1)]):
                if 0 <= y + dy < self.h and 0 <= x + dx < self.w:
                    b = (y + dy) * self.w + (x + dx)
                    if a in self.floor and b in self.floor:
                        out[d] = b
            self._near[a] = out
        return self._near[a]

    def near(self, a):
        return list(self.dirs(a).values())

    def dist(self, a, b):
        """least number of edges of a walk, None where there is none"""
        if b not in self._dist:
            seen = {b: 0}
            ring = [b]
            while ring:
                nxt = []
                for u in ring:
                    for v in self.near(u):
                        if v not in seen:
                            seen[v] = seen[u] + 1
                            nxt.append(v)
                ring = nxt
            self._dist[b] = seen
        return self._dist[b].get(a)

    def bridge(self, a, b):
        """remove the edge and search"""
        key = (min(a, b), max(a, b))
        if key not in self._bridge:
            seen, todo = {a}, [a]
            while todo:
                u = todo.pop()
                for v in self.near(u):
                    if {u, v} == {a, b}:
                        continue
                    if v not in seen:
                        seen.add(v)
                        todo.append(v)
            self._bridge[key] = b not in seen
        return self._bridge[key]

    def bridges(self):
        return [(a, b) for a in sorted(self.floor) for b in sorted(self.near(a))
                if a < b and self.bridge(a, b)]

    def bridgeless(self):
        if self._bridgeless is None:
            self._bridgeless = not self.bridges()
        return self._bridgeless

    def side(self, a, b):
        """the cells that are reached from b without the edge from a to b"""
        if (a, b) not in self._sides:
            seen, todo = {b}, [b]
            while todo:
                u = todo.pop()
                for v in self.near(u):
                    if {u, v} != {a, b} and v not in seen:
                        seen.add(v)
                        todo.append(v)
            self._sides[(a, b)] = seen
        return self._sides[(a, b)]

    def roomy(self, n):
        """the cells that are roomy for n robots: each side of a bridge that has the cell has n cells"""
        tight = set()
        for a, b in self.bridges():
            for side in (self.side(a, b), self.side(b, a)):
                if len(side) < n:
                    tight |= side
        return self.floor - tight

    def span(self):
        """The reach: the most edges that a walk can need, 1 at least."""
        if self._span is None:
            best = 1
            for b in self.floor:
                self.dist(b, b)
                best = max(best, max(self._dist[b].values()))
            self._span = best
        return self._span


# ------------------------------------------------------------------ history
class History:
    """What is said of an opening and the entries so far."""

    def __init__(self, m, trace):
        self.m = m
        self.o = trace["opening"]
        self.entries = []
        n = len(self.o["robots"])
        self.n = n
        # accepted: [client, number, cell, clock at acceptance or None, place j, withdrawn]
        self.acc = [[[e[0], e[1], e[2], None, None, False] for e in r[3]] for r in self.o["robots"]]
        self.arr = [[] for _ in range(n)]         # (client, number, cell, tick)
        self.cells = [r[0] for r in self.o["robots"]]
        self.ticks = 0                            # Tick entries so far
        self.shut = [r[1] for r in self.o["robots"]]
        self.left = [r[1] and not r[3] for r in self.o["robots"]]
        self.closed = [c[3] for c in self.o["clients"]]
        self.okays = [c[1] for c in self.o["clients"]]

    def accepted(self, r):
        return [e for e in self.acc[r] if not e[5]]

    def unfinished(self, r):
        return self.accepted(r)[len(self.arr[r]):]

    def front(self, r):
        u = self.unfinished(r)
        return u[0] if u else None

    def wait(self, r):
        f = self.front(r)
        if f is None:
            return None
        marks = []
        if f[3] is not None:
            marks.append(f[3])
        if self.arr[r]:
            marks.append(self.arr[r][-1][3])
        if not marks:
            return self.o["robots"][r][2] + self.ticks
        return self.ticks - max(marks)

    def waits(self):
        return [self.wait(r) for r in range(self.n)]

    def eldest(self):
        ws = self.waits()
        have = [w for w in ws if w is not None]
        return ws.index(max(have)) if have else None

    def verdict(self, c, order):
        """The verdict rule."""
        R = REFUSED
        if self.closed[c]:
            return ["refused", R["client_closed"]]
        if order[0] == "close":
            return ["closed"]
        if order[0] == "withdraw":
            for r in range(self.n):
                for j, e in enumerate(self.unfinished(r)):
                    if e[0] == c and e[1] == order[1]:
                        return ["refused", R["too_late"]] if j == 0 else ["withdrawn"]
            return ["refused", R["no_errand"]]
        r, cell = order[1], order[2]
        if not r < self.n:
            return ["refused", R["no_robot"]]
        if self.shut[r]:
            return ["refused", R["robot_shut"]]
        if not cell < self.m.size:
            return ["refused", R["no_cell"]]
        if cell not in self.m.floor:
            return ["refused", R["blocked"]]
        if self.m.dist(self.cells[r], cell) is None:
            return ["refused", R["unreachable"]]
        if len(self.unfinished(r)) == self.o["queue"]:
            return ["refused", R["queue_full"]]
        if self.okays[c] == self.o["life"]:
            return ["refused", R["life_spent"]]
        return ["accepted", self.okays[c] + 1]

    def add(self, e):
        self.entries.append(e)
        if e[0] == "take":
            _, c, order, v = e
            if v[0] == "accepted":
                r = order[1]
                self.acc[r].append([c, v[1], order[2], self.ticks, len(self.unfinished(r)), False])
                self.okays[c] += 1
            elif v[0] == "closed":
                self.closed[c] = True
            elif v[0] == "withdrawn":
                for r in range(self.n):
                    for f in self.unfinished(r):
                        if f[0] == c and f[1] == order[1]:
                            f[5] = True
        elif e[0] == "tick":
            self.ticks += 1
            self.cells = list(e[1])
            for a in e[2]:
                self.arr[a[0]].append((a[1], a[2], e[1][a[0]], self.ticks))
            for b in e[3]:
                self.left[b[0]] = True
        else:
            self.shut[e[1]] = True
            if len(e) == 3:
                self.left[e[1]] = True


def opening_faults(m, o):
    """Rule 1, part by part."""
    R, C = o["robots"], o["clients"]
    if not (1 <= len(R) <= 512):
        yield "robots"
        return
    if not (1 <= len(C) <= 64):
        yield "clients"
        return
    if not (1 <= o["queue"] <= 65536 and 1 <= o["life"] <= 2 ** 40):
        yield "queue or life"
    for r in R:
        if r[0] not in m.floor:
            yield "cell not floor"
        if [x[0] for x in R].count(r[0]) > 1:
            yield "cell shared"
        if r[4][0] > r[4][1] or r[5][0] > r[5][1]:
            yield "law"
        if (r[2] is None) != (len(r[3]) == 0):
            yield "wait"
        if r[2] is not None and r[2] > o["tick"]:
            yield "wait over tick"
        if len(r[3]) > o["queue"]:
            yield "queue"
        for i, e in enumerate(r[3]):
            if e[0] >= len(C):
                yield "errand client"
                continue
            if e[1] < 1 or e[1] > C[e[0]][1]:
                yield "errand number"
            if e[2] not in m.floor or m.dist(r[0], e[2]) is None:
                yield "errand cell"
            for f in r[3][i + 1:]:
                if f[0] == e[0] and f[1] <= e[1]:
                    yield "errands do not rise"
    every = [(e[0], e[1]) for r in R for e in r[3]]
    if len(every) != len(set(every)):
        yield "errand twice"
    for c, (taken, accepted, noticed, closed) in enumerate(C):
        if max(taken, accepted, noticed) > 2 ** 57:
            yield "count"
        if accepted > taken or accepted > o["life"]:
            yield "accepted"
        if closed and not taken > accepted:
            yield "closed"
        most = taken + accepted - len([e for e in every if e[0] == c])
        if noticed < taken or noticed > most:
            yield "noticed"


def lawful(m, P, Q):
    """Whether a step is conflict-free."""
    if len(Q) != len(P):
        return False
    for p, q in zip(P, Q):
        if q not in m.floor:
            return False
        if q != p and q not in m.near(p):
            return False
    for i in range(len(P)):
        for j in range(i):
            if Q[i] == Q[j]:
                return False
            if Q[i] == P[j] and Q[j] == P[i]:
                return False
    return True


def unidle(m, P, Q, goals):
    """The parts of purposeful that are broken."""
    out = []
    for r, g in enumerate(goals):
        if g is not None:
            for x in m.near(P[r]):
                if m.dist(x, g) < m.dist(Q[r], g) and x not in P and x not in Q:
                    out.append(("passes-free-cell", f"robot {r} could go to {x}"))
    def to_goal(r, cell):
        return m.dist(cell, P[r] if goals[r] is None else goals[r])
    def moves_nearer(r):
        return Q[r] != P[r] and to_goal(r, Q[r]) < to_goal(r, P[r])
    for r in range(len(P)):
        if Q[r] != P[r] and not moves_nearer(r):
            at, seen, good = r, set(), False
            while True:
                takers = [s for s in range(len(P)) if s != at and Q[s] == P[at]]
                if not takers or takers[0] in seen:
                    break
                at = takers[0]
                seen.add(at)
                if moves_nearer(at):
                    good = True
                    break
            if not good:
                out.append(("wanders", f"robot {r} wanders"))
    return out


def check_chapter(m, trace, tie_laws=None, world=True, legal_only=False, stats=None):
    """All faults found, as (at, rule, text).  Stops at the first illegal entry.
    tie_laws: per robot (low[4], high[4]), for tie-order.  world: the history comes from a
    World (wait-bound applies).  stats: dict that collects the greatest wait and so on."""
    out = []
    for text in opening_faults(m, trace["opening"]):
        return [(0, 1, text)]
    h = History(m, trace)
    n = h.n
    L = m.span() if not legal_only else 1
    bridgeless = m.bridgeless() if not legal_only else False
    theory = not legal_only
    roomy = m.roomy(n) if theory else set()
    # Whether the theorems on waits hold: no bridge, or each errand so far goes to a roomy cell
    bounded = theory and (bridgeless or all(f[2] in roomy for r in range(n) for f in h.accepted(r)))
    opened = [True]             # whether the opening is within the bound
    accepted_log = []           # (errand, ticks needed by arrives-in-turn, ticks seen, robot, at)
    nearer_log = []             # for each tick: nearer or not
    run_start = None            # idle-within: (bound, ticks since, all nearer)

    def t5c_start():
        return [max(len(h.unfinished(r)) for r in range(n)) * n * max(1, len(m.floor) - 1), 0, True]

    def ahead_of(r, ws):
        return sum(1 for s in range(n) if ws[s] is not None and s != r and (ws[s] > ws[r] or (ws[s] == ws[r] and s < r)))

    def within(r, ws, d):
        return ws[r] + d + ahead_of(r, ws) * L <= n * L

    def t5a(at):
        if not (bounded and world and opened[0]):
            return
        ws = h.waits()
        el = h.eldest()
        if el is None:
            return
        f = h.front(el)
        d = max(1, m.dist(h.cells[el], f[2]))
        for r in range(n):
            if ws[r] is None:
                continue
            if at == 0 and not bridgeless and not (ws[r] < n * L and within(r, ws, d)):
                opened[0] = False   # an earlier chapter's errands were not roomy
                return
            if stats is not None:
                stats["wait"] = max(stats.get("wait", 0), ws[r])
                if n * L >= 4:
                    stats["wait_share"] = max(stats.get("wait_share", 0.0), ws[r] / (n * L))
            if not ws[r] < n * L:
                out.append((at, "wait-bound", f"robot {r} waits {ws[r]}, bound {n * L}"))
            if not within(r, ws, d):
                out.append((at, "wait-invariant", f"robot {r}: {ws[r]} + {d} + {ahead_of(r, ws)} * {L} > {n} * {L}"))

    t5a(0)
    if bounded:
        run_start = t5c_start()
        if run_start[0] == 0 and any(h.front(r) for r in range(n)):
            out.append((0, "idle-within", "bound 0 with a front"))
    for at, e in enumerate(trace["entries"], 1):
        if e[0] == "take":
            if e[1] >= len(h.closed):
                return out + [(at, 2, "client")]
            want = h.verdict(e[1], e[2])
            if list(e[3]) != want:
                return out + [(at, 3, f"verdict {e[3]}, the verdict rule says {want}")]
            h.add(e)
            if theory and e[3][0] == "accepted":
                f = h.accepted(e[2][1])[-1]
                bounded = bounded and (bridgeless or f[2] in roomy)
                if h.unfinished(e[2][1])[-1] is not f:
                    out.append((at, "place", "accepted errand is not last"))
                accepted_log.append((f, (f[4] + 1) * n * L, len(nearer_log), e[2][1], at))
        elif e[0] == "tick":
            P, Q = h.cells, e[1]
            if not lawful(m, P, Q):
                return out + [(at, 4, f"{P} to {Q}")]
            fronts = [h.front(r) for r in range(n)]
            due = [[r, f[0], f[1]] for r, f in enumerate(fronts) if f is not None and f[2] == Q[r]]
            if [list(a[:3]) for a in e[2]] != due:
                return out + [(at, 5, f"arrivals {e[2]}, due {due}")]
            before = [(h.shut[r] and not h.unfinished(r)) for r in range(n)]
            if theory:
                goals = [None if f is None else f[2] for f in fronts]
                for rule, text in unidle(m, P, Q, goals):
                    out.append((at, rule, text))
                el = h.eldest()
                nearer = True
                if el is not None:
                    g = fronts[el][2]
                    old, new = m.dist(P[el], g), m.dist(Q[el], g)
                    nearer = new == old - 1 or (old == 0 and Q[el] == P[el])
                    closer = {d: x for d, x in m.dirs(P[el]).items() if m.dist(x, g) < old}
                    premise = all(x not in P or not m.bridge(P[el], x) for x in closer.values())
                    if bounded and not nearer:
                        out.append((at, "advancing", f"eldest {el} {P[el]} to {Q[el]}, goal {g}"))
                    blocked = any(m.bridge(P[el], x) and m.side(P[el], x) <= set(P) for x in closer.values())
                    if nearer == blocked:
                        out.append((at, "way-ahead", f"eldest {el} {P[el]} to {Q[el]}, goal {g}, blocked: {blocked}"))
                    if premise and not nearer:
                        out.append((at, "eldest-advances", f"eldest {el} {P[el]} to {Q[el]}, goal {g}"))
                    if premise and tie_laws is not None:
                        low, high = tie_laws[el]
                        for d, x in closer.items():
                            if x == Q[el]:
                                for d2, y in closer.items():
                                    if d2 != d and (high[d2] < low[d]
                                                    or (high[d2] <= low[d] and d2 < d)):
                                        out.append((at, "tie-order", f"eldest {el} leaves by {d}, not {d2}"))
                    if stats is not None:
                        key = "nearer" if nearer else "stuck"
                        stats[key] = stats.get(key, 0) + 1
                        if not premise:
                            stats["premise_fails"] = stats.get("premise_fails", 0) + 1
                nearer_log.append(nearer)
                if stats is not None:
                    stats["ticks"] = stats.get("ticks", 0) + 1
            h.add(["tick", Q, e[2], []])
            now = [r for r in range(n) if h.shut[r] and not h.unfinished(r) and not h.left[r]]
            if [b[0] for b in e[3]] != now or (any(before[r] for r in now)):
                return out + [(at, 6, f"farewells {e[3]}, due {now}")]
            for a in e[2]:
                low, high = trace["opening"]["robots"][a[0]][4]
                if not low <= a[3] <= high:
                    return out + [(at, 7, "arrival stamp")]
            for b in e[3]:
                h.left[b[0]] = True
                low, high = trace["opening"]["robots"][b[0]][5]
                if not low <= b[1] <= high:
                    return out + [(at, 7, "farewell stamp")]
        else:
            r = e[1]
            if r >= n or h.shut[r]:
                return out + [(at, 8, "shut")]
            if (len(e) == 3) != (not h.unfinished(r)):
                return out + [(at, 6, "shut farewell")]
            if len(e) == 3:
                low, high = trace["opening"]["robots"][r][5]
                if not low <= e[2] <= high:
                    return out + [(at, 7, "shut stamp")]
            h.add(e)
        # theorems over the state after the entry
        t5a(at)
        if bounded:
            if e[0] == "take":
                run_start = t5c_start()
            elif e[0] == "tick":
                run_start[1] += 1
                run_start[2] = run_start[2] and nearer_log[-1]
            if run_start[2] and run_start[1] >= run_start[0]:
                if any(h.front(r) for r in range(n)):
                    out.append((at, "idle-within", f"a front after {run_start[1]} of {run_start[0]} ticks"))
                elif stats is not None and run_start[0] > 0:
                    stats["t5c_full"] = stats.get("t5c_full", 0) + 1
    # prefix, arrives-in-turn
    for r in range(n):
        acc = [tuple(x[:3]) for x in h.accepted(r)]
        arr = [x[:3] for x in h.arr[r]]
        if acc[:len(arr)] != arr:
            out.append((len(h.entries), "prefix", f"robot {r}: {arr} of {acc}"))
    for f, need, since, r, at in accepted_log:
        if f[5]:
            continue
        seg = nearer_log[since:since + need]
        if len(seg) == need and all(seg):
            if stats is not None:
                stats["t5b_full"] = stats.get("t5b_full", 0) + 1
            t = [x[3] for x in h.arr[r] if x[:2] == (f[0], f[1])]
            if not t or t[0] > since + need:
                out.append((at, "arrives-in-turn", f"errand {f[:3]} has not arrived in {need} ticks"))
        if stats is not None:
            for x in h.arr[r]:
                if x[:2] == (f[0], f[1]):
                    stats["t5b_share"] = max(stats.get("t5b_share", 0.0), (x[3] - since) / need)
    return out


# ------------------------------------------------------------------ the ring law, the core step
def notices(trace):
    """The notices of each client, from the opening's counts."""
    o = trace["opening"]
    seq = [c[2] for c in o["clients"]]
    order_no = [c[0] for c in o["clients"]]
    out = [[] for _ in o["clients"]]
    tick = o["tick"]
    for e in trace["entries"]:
        if e[0] == "take":
            c = e[1]
            seq[c] += 1
            order_no[c] += 1
            out[c].append(["verdict", seq[c], order_no[c], list(e[3])])
        elif e[0] == "tick":
            tick += 1
            for r, c, number, stamp in e[2]:
                seq[c] += 1
                out[c].append(["arrived", seq[c], number, r, e[1][r], tick, stamp])
    return out


def flat(x):
    return [flat(y) for y in x] if isinstance(x, (list, tuple)) else x


def ring_law(trace, c, taken, given, mailbox):
    """The ring law for one client, chapter 0 or later, where `taken` is the whole list of orders
    taken, `given` and `mailbox` whole lists of notices."""
    out = []
    o = trace["opening"]["clients"][c]
    mine = [e for e in trace["entries"] if e[0] == "take" and e[1] == c]
    orders = [list(e[2]) for e in mine]
    if flat(taken)[len(taken) - len(orders):] != orders:
        out.append(f"client {c}: taken is not the history's orders")
    if len(taken) != o[0] + len(orders):
        out.append(f"client {c}: length of taken")
    whole = flat(given) + flat(mailbox)
    ns = notices(trace)[c]
    if whole[len(whole) - len(ns):] != ns:
        out.append(f"client {c}: given ++ mailbox does not end with notices")
    if len(whole) != o[2] + len(ns):
        out.append(f"client {c}: length of given ++ mailbox")
    verdicts, numbers, seen = 0, 0, set()
    for s, k in enumerate(whole, 1):
        if k[1] != s:
            out.append(f"client {c}: seq {k[1]} at {s}")
        if k[0] == "verdict":
            verdicts += 1
            if k[2] != verdicts:
                out.append(f"client {c}: order number {k[2]}")
            if k[3][0] == "accepted":
                numbers += 1
                if k[3][1] != numbers:
                    out.append(f"client {c}: accepted number {k[3][1]}")
        else:
            if not 1 <= k[2] <= numbers or k[2] in seen:
                out.append(f"client {c}: arrival of {k[2]} too early or twice")
            seen.add(k[2])
    if verdicts != len(taken):
        out.append(f"client {c}: {verdicts} verdicts, {len(taken)} taken")
    return out


def check_run(m, lim, clients, events, replies, trace, lists):
    """Each reply is the one of the cases, in their order; then the ring law at the end.
    lists: dict sent, lanes, given, outlets, collected, mailbox (per client)."""
    out = []
    h = History(m, dict(opening=trace["opening"], entries=[]))
    entries = trace["entries"]
    sent = [[] for _ in range(clients)]
    taken = [[] for _ in range(clients)]
    made = [[] for _ in range(clients)]          # notices made
    given = [[] for _ in range(clients)]
    collected = [[] for _ in range(clients)]

    def want(i, got, ok):
        if list(flat(got)) != list(flat(ok)):
            out.append(f"event {i} {events[i]}: {got}, core step says {ok}")
            return False
        return True

    def mail(c):
        return len(made[c]) - len(given[c])

    def owed(c):
        return sum(1 for r in range(h.n) for e in h.unfinished(r) if e[0] == c)

    for i, (ev, re) in enumerate(zip(events, replies)):
        k = ev[0]
        full = len(h.entries) == lim["chapter"]
        if k in ("post", "take", "give", "collect") and ev[1] >= clients:
            want(i, re, ["no-client"])
            continue
        c = ev[1] if len(ev) > 1 else None
        if k == "post":
            if len(sent[c]) - len(taken[c]) == lim["lane"]:
                want(i, re, ["lane-full"])
            elif want(i, re, ["posted", len(sent[c]) + 1]):
                sent[c].append(list(ev[2]))
        elif k == "take":
            if len(sent[c]) == len(taken[c]):
                want(i, re, ["lane-empty"])
            elif mail(c) + owed(c) > lim["mailbox"] - 2:
                want(i, re, ["take-refused", 1])
            elif full:
                want(i, re, ["take-refused", 2])
            else:
                order = sent[c][len(taken[c])]
                v = h.verdict(c, order)
                if not want(i, re, ["took", len(taken[c]) + 1, v]):
                    return out
                e = entries[len(h.entries)]
                if flat(e) != ["take", c, order, v]:
                    return out + [f"event {i}: entry {e}"]
                taken[c].append(order)
                h.add(e)
                made[c].append(v)
        elif k == "tick":
            if h.o["tick"] + h.ticks == lim["clock"]:
                want(i, re, ["tick-refused", 1])
            elif full:
                want(i, re, ["tick-refused", 2])
            else:
                e = entries[len(h.entries)]
                if e[0] != "tick":
                    return out + [f"event {i}: entry {e}"]
                if not want(i, re, ["ticked", h.o["tick"] + h.ticks + 1, len(e[2]), len(e[3])]):
                    return out
                h.add(e)
                for a in e[2]:
                    made[a[1]].append(a)
        elif k == "shut":
            if c >= h.n:
                want(i, re, ["shut-refused", 1])
            elif h.shut[c]:
                want(i, re, ["shut-refused", 2])
            elif full:
                want(i, re, ["shut-refused", 3])
            else:
                e = entries[len(h.entries)]
                if not want(i, re, ["shut-done", e[2] if len(e) == 3 else None]):
                    return out
                h.add(e)
        elif k == "give":
            if mail(c) == 0:
                want(i, re, ["nothing-pending"])
            elif len(given[c]) - len(collected[c]) == lim["outlet"]:
                want(i, re, ["outlet-full"])
            else:
                if want(i, re, ["gave", len(given[c]) + 1]):
                    given[c].append(None)
        elif k == "collect":
            if len(given[c]) == len(collected[c]):
                want(i, re, ["nothing-there"])
            else:
                all_notices = notices(dict(opening=trace["opening"], entries=h.entries))[c]
                if want(i, re, ["collected", all_notices[len(collected[c])]]):
                    collected[c].append(None)
        for x in range(clients):
            if mail(x) > lim["mailbox"]:
                out.append(f"event {i}: mailbox of {x} overflows")
    if len(entries) != len(h.entries):
        out.append("entries left over")
    for c in range(clients):
        if flat(lists["sent"][c]) != sent[c]:
            out.append(f"client {c}: sent")
        if flat(lists["lanes"][c]) != sent[c][len(taken[c]):]:
            out.append(f"client {c}: lane is not sent without taken")
        g, k, o = flat(lists["given"][c]), flat(lists["collected"][c]), flat(lists["outlets"][c])
        if k + o != g:
            out.append(f"client {c}: collected ++ outlet is not given")
        out += ring_law(trace, c, taken[c], g, lists["mailbox"][c])
    return out


# ------------------------------------------------------------------ maps, by a pattern
import re

_SP = rb"[ \t]+"
_TAIL = rb"[ \t]*"
_EOL = rb"(?:\r?\n|\r?\Z)"


def map_accepts(data, limit=1024):
    """Does the text stand in the grammar of maps?  -> (height, width, cells) or None.
    A pattern over the whole text."""
    head = re.match(rb"type" + _SP + rb"[^ \t\r\n]+" + _TAIL + rb"\r?\n"
                    rb"(?:height" + _SP + rb"(?P<h1>[0-9]+)" + _TAIL + rb"\r?\nwidth" + _SP
                    + rb"(?P<w1>[0-9]+)|width" + _SP + rb"(?P<w2>[0-9]+)" + _TAIL + rb"\r?\nheight"
                    + _SP + rb"(?P<h2>[0-9]+))" + _TAIL + rb"\r?\nmap" + _TAIL + rb"\r?\n", data)
    if not head:
        return None
    hs, ws = (head["h1"] or head["h2"]).lstrip(b"0"), (head["w1"] or head["w2"]).lstrip(b"0")
    if len(hs) > 5 or len(ws) > 5:
        return None
    h, w = int(hs or b"0"), int(ws or b"0")
    if not (1 <= h <= limit and 1 <= w <= limit):
        return None
    at, cells = head.end(), b""
    row = re.compile(rb"([.GS@OTW]{%d})" % w + _TAIL + _EOL)
    for _ in range(h):
        m = row.match(data, at)
        if not m:
            return None
        cells += m[1]
        at = m.end()
    if not re.fullmatch(rb"(?:[ \t]*\r?\n)*[ \t]*\r?", data[at:]):
        return None
    return h, w, cells


# ------------------------------------------------------------------ scripts, by patterns
_N = rb"0*[0-9]{1,20}"


def _line_forms():
    """[(pattern, [greatest value per number, least value per number]), header name]"""
    top32, top64 = 2 ** 32 - 1, 2 ** 64 - 1
    heads = [("robots", rb"robots((?:\s\d+){1,16})", top32, 0), ("clients", rb"clients(\s\d+)", top32, 0)]
    for name in ("lane", "outlet", "queue", "mailbox", "chapter", "chapters"):
        heads.append((name, name.encode() + rb"(\s\d+)", top32, 0))
    for name in ("life", "orders", "clock"):
        heads.append((name, name.encode() + rb"(\s\d+)", top64, 0))
    heads.append(("ties", rb"ties\s(?:plain|south)()", 0, 0))
    heads.append(("turns", rb"turns(\s\d+)", 10 ** 6, 1))
    events = [(rb"post(\s\d+)\sgo(\s\d+)(\s\d+)", top32, 0), (rb"(?:take|give|collect)(\s\d+)", top32, 0),
              (rb"tick()", 0, 0), (rb"tick(\s\d+)", 10 ** 6, 1)]
    events += [(rb"post(\s\d+)\sclose", top32, 0), (rb"shut(\s\d+)", top32, 0)]
    return heads, events


def script_fault(data):
    """The line of the first fault, or None.  Independent of model.read_script."""
    heads, events = _line_forms()
    lines = data.split(b"\n")
    if lines[-1] == b"":
        lines = lines[:-1]
    seen, begun = set(), False

    def numbers_fit(groups, top, least):
        for g in groups:
            for w in g.split():
                if len(w) > 20 or not least <= int(w) <= top:
                    return False
        return True

    for n, line in enumerate(lines, 1):
        if line.endswith(b"\r"):
            line = line[:-1]
        if line[:1] == b"#" or not line.strip(b" \t"):
            continue
        if re.search(rb"[\x0b\x0c\r]", line):
            return n                                  # never part of a known word
        flatline = re.sub(rb"[ \t]+", b" ", line.strip(b" \t"))
        ok = False
        for name, pat, top, least in heads:
            m = re.fullmatch(pat, flatline)
            if m:
                if begun or name in seen or not numbers_fit(m.groups(), top, least):
                    return n
                seen.add(name)
                ok = True
        for pat, top, least in events:
            m = re.fullmatch(pat, flatline)
            if m:
                if not numbers_fit(m.groups(), top, least):
                    return n
                begun = ok = True
        m = re.fullmatch(rb"post\s(\d+)\swithdraw\s(\d+)", flatline)
        if m:
            if not (numbers_fit([m[1]], 2 ** 32 - 1, 0) and numbers_fit([m[2]], 2 ** 64 - 1, 0)):
                return n
            begun = ok = True
        if not ok:
            return n
    return None if "robots" in seen else len(lines) + 1


# ------------------------------------------------------------------ JSON, by the library
def json_value(data):
    """The value as the crate reads it, or the text 'no'.  By Python's json and tests on it."""
    import json
    import math
    try:
        text = data.decode("utf-8")
    except UnicodeDecodeError:
        return "no"
    if text[:1] == "\ufeff":
        return "no"

    class Bad(Exception):
        pass

    def refuse(_):
        raise Bad()

    def whole(t):
        v = int(t) if len(t) < 400 else 10 ** 400 * (-1 if t[0] == "-" else 1)
        if t[0] != "-" and v < 2 ** 64:
            return v
        if t[0] == "-" and v != 0 and v >= -2 ** 63:
            return v
        return real(t)

    def real(t):
        f = float(t)
        if math.isinf(f):
            raise Bad()
        return f

    depth, inside, most = 0, False, 0
    i = 0
    while i < len(text):                               # nesting, outside of strings
        c = text[i]
        if inside:
            if c == "\\":
                i += 1
            elif c == '"':
                inside = False
        elif c == '"':
            inside = True
        elif c in "[{":
            depth += 1
            most = max(most, depth)
        elif c in "]}":
            depth -= 1
        i += 1
    if most > 127:
        return "no"
    try:
        v = json.loads(text, parse_int=whole, parse_float=real, parse_constant=refuse)
    except (Bad, ValueError, RecursionError):
        return "no"
    def strings(x):
        if isinstance(x, str):
            yield x
        elif isinstance(x, list):
            for y in x:
                yield from strings(y)
        elif isinstance(x, dict):
            for k, y in x.items():
                yield k
                yield from strings(y)
    # a lone surrogate stays in Python's text; a key that comes twice may hide one
    if any("\ud800" <= c <= "\udfff" for s in strings(v) for c in s):
        return "no"
    return v

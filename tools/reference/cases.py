"""Seeded generators of maps, scripts, traces, words and whole cases for fuzz.
A case is dict(words=[..], stdin=bytes, files={name: bytes}, kind=str)."""
import os
import json
import random
import laws
import model
from model import Grid, World, limits

BIG = [0, 1, 2, 3, 5, 16, 63, 64, 65, 127, 128, 129, 255, 256, 999, 1000, 1001, 1023, 1024, 1025,
       65535, 65536, 65537, 999999, 1000000, 1000001, 16777215, 16777216, 16777217,
       2 ** 31 - 1, 2 ** 31, 2 ** 32 - 1, 2 ** 32, 2 ** 40, 2 ** 40 + 1, 2 ** 48, 2 ** 48 + 1,
       2 ** 57, 2 ** 57 + 1, 2 ** 62, 2 ** 62 + 1, 2 ** 63 - 1, 2 ** 63, 2 ** 64 - 1, 2 ** 64,
       10 ** 19, 10 ** 20 - 1, 10 ** 20, 10 ** 30]


# ---------------------------------------------------------------- floors
def floors(rng, kind=None):
    """rows of '.' and '@'"""
    kind = kind or rng.choice(["open", "open", "thin", "random", "random", "rooms", "ring", "chords",
                               "parts", "comb", "dense", "two", "one", "maze"])
    if kind == "one":
        h, w = 1, rng.randint(1, 3)
        g = [["."] * w for _ in range(h)]
    elif kind == "open":
        h, w = rng.randint(1, 6), rng.randint(1, 6)
        g = [["."] * w for _ in range(h)]
    elif kind == "dense":
        h, w = rng.choice([(2, 2), (2, 3), (3, 2), (2, 4), (4, 2), (2, 5), (2, 6), (2, 7), (2, 8),
                           (3, 3), (3, 4), (4, 3), (4, 4), (3, 5), (5, 3)])
        g = [["."] * w for _ in range(h)]
        if rng.random() < 0.4:
            g[rng.randrange(h)][rng.randrange(w)] = "@"
    elif kind == "two":
        h, w = 2, rng.randint(2, 8)
        g = [["."] * w for _ in range(h)]
    elif kind == "thin":
        if rng.random() < 0.5:
            h, w = 1, rng.randint(2, 12)
        else:
            h, w = rng.randint(2, 12), 1
        g = [["."] * w for _ in range(h)]
        if rng.random() < 0.2:
            g[rng.randrange(h)][rng.randrange(w)] = "@"
    elif kind == "random":
        h, w = rng.randint(2, 7), rng.randint(2, 7)
        p = rng.choice([0.1, 0.2, 0.3, 0.45])
        g = [["@" if rng.random() < p else "." for _ in range(w)] for _ in range(h)]
    elif kind == "rooms":
        h, w = rng.randint(5, 9), rng.randint(5, 9)
        g = [["."] * w for _ in range(h)]
        r, c = rng.randint(1, h - 2), rng.randint(1, w - 2)
        for x in range(w):
            g[r][x] = "@"
        for y in range(h):
            g[y][c] = "@"
        for y, x in ((r, rng.randrange(w)), (r, rng.randrange(w)), (rng.randrange(h), c),
                     (rng.randrange(h), c)):
            g[y][x] = "."
    elif kind == "ring":
        h, w = rng.randint(3, 6), rng.randint(3, 6)
        g = [["." if y in (0, h - 1) or x in (0, w - 1) else "@" for x in range(w)] for y in range(h)]
    elif kind == "chords":
        h, w = rng.randint(3, 8), rng.randint(3, 8)
        g = [["." if y in (0, h - 1) or x in (0, w - 1) else "@" for x in range(w)] for y in range(h)]
        for _ in range(rng.randint(1, 3)):
            if rng.random() < 0.5:
                y = rng.randrange(h)
                for x in range(w):
                    g[y][x] = "."
            else:
                x = rng.randrange(w)
                for y in range(h):
                    g[y][x] = "."
        for _ in range(rng.randint(0, 2)):
            g[rng.randrange(h)][rng.randrange(w)] = rng.choice(".@")
    elif kind == "parts":
        h, w = rng.randint(1, 5), rng.randint(5, 9)
        g = [["."] * w for _ in range(h)]
        x = rng.randint(1, w - 2)
        for y in range(h):
            g[y][x] = "@"
        if h > 2 and rng.random() < 0.5:
            y = rng.randint(1, h - 2)
            for x in range(w):
                g[y][x] = "@"
    elif kind == "comb":
        w, h = rng.randint(3, 9), rng.randint(2, 4)
        g = [["." if y == 0 or x % 2 == 0 else "@" for x in range(w)] for y in range(h)]
    else:                                            # maze
        h, w = rng.choice([5, 7]), rng.choice([5, 7, 9])
        g = [["@"] * w for _ in range(h)]
        todo = [(0, 0)]
        g[0][0] = "."
        while todo:
            y, x = todo[-1]
            ns = [(dy, dx) for dy, dx in ((0, 2), (2, 0), (0, -2), (-2, 0))
                  if 0 <= y + dy < h and 0 <= x + dx < w and g[y + dy][x + dx] == "@"]
            if not ns:
                todo.pop()
                continue
            dy, dx = rng.choice(ns)
            g[y + dy // 2][x + dx // 2] = g[y + dy][x + dx] = "."
            todo.append((y + dy, x + dx))
        for _ in range(rng.randint(0, 5)):
            g[rng.randrange(h)][rng.randrange(w)] = "."
    return ["".join(r) for r in g]


def bridgeless_floor(rng, tries=60):
    for _ in range(tries):
        k = rng.choice(["open", "dense", "dense", "two", "ring", "chords", "chords", "random", "parts",
                        "rooms", "maze"])
        rows = floors(rng, k)
        g = Grid.of(rows)
        if g.floor_count() > 0 and g.edge_count() > 0 and g.first_bridge() is None:
            return rows
    return ["..", ".."]


def decorate(rng, rows):
    """floor and obstacle letters"""
    out = []
    for r in rows:
        s = ""
        for c in r:
            if c == ".":
                s += "." if rng.random() < 0.8 else rng.choice("GS")
            else:
                s += "@" if rng.random() < 0.7 else rng.choice("OTW")
        out.append(s)
    return out


def map_text(rng, rows, clean=False):
    h, w = len(rows), len(rows[0])
    if clean or rng.random() < 0.5:
        return ("\n".join(["type octile", f"height {h}", f"width {w}", "map"] + rows) + "\n").encode()
    sp = lambda: rng.choice([" ", "\t", "  ", " \t "])
    tail = lambda: rng.choice(["", "", "", " ", "\t", "  \t"])
    num = lambda v: "0" * rng.choice([0, 0, 1, 3, 25]) + str(v)
    sides = [f"height{sp()}{num(h)}", f"width{sp()}{num(w)}"]
    if rng.random() < 0.4:
        sides.reverse()
    word = rng.choice(["octile", "x", "type", "map", "héé", "\x00", "a#b", "\x7f\x01", "\x0b"])
    lines = [f"type{sp()}{word}"] + sides + ["map"] + rows
    for _ in range(rng.choice([0, 0, 0, 1, 2])):
        lines.append(rng.choice(["", " ", "\t \t"]))
        if lines[-1] == "" and rng.random() < 0.5:
            lines.append("")
    eol = rng.choice(["\n", "\n", "\r\n", None])
    text = ""
    for i, line in enumerate(lines):
        e = eol if eol is not None else rng.choice(["\n", "\r\n"])
        if i < 4 + h:
            line += tail()
        text += line + e
    data = text.encode()
    if rng.random() < 0.2:
        data = data.rstrip(b"\n")
        if rng.random() < 0.3:
            data = data.rstrip(b"\r")
    return data


def hostile_map(rng, data):
    """near-valid and hostile"""
    for _ in range(rng.choice([1, 1, 1, 2, 3])):
        k = rng.randrange(13)
        lines = data.split(b"\n")
        i = rng.randrange(len(lines))
        if k == 0:
            data = data[:rng.randrange(len(data) + 1)]
        elif k == 1 and data:
            p = rng.randrange(len(data))
            data = data[:p] + bytes([rng.choice([0, 9, 10, 13, 32, 46, 64, 71, 120, 128, 255,
                                                 rng.randrange(256)])]) + data[p + 1:]
        elif k == 2 and data:
            p = rng.randrange(len(data))
            data = data[:p] + data[p + 1:]
        elif k == 3:
            p = rng.randrange(len(data) + 1)
            data = data[:p] + bytes([rng.choice([9, 10, 13, 32, 46, 64, 71, 87, 48, 57, 120])]) + data[p:]
        elif k == 4:
            del lines[i]
            data = b"\n".join(lines)
        elif k == 5:
            lines.insert(i, rng.choice(lines))
            data = b"\n".join(lines)
        elif k == 6:
            j = rng.randrange(len(lines))
            lines[i], lines[j] = lines[j], lines[i]
            data = b"\n".join(lines)
        elif k == 7:
            word = rng.choice([b"height", b"width"])
            v = str(rng.choice(BIG)).encode()
            lines = [word + b" " + v if x.startswith(word) else x for x in lines]
            data = b"\n".join(lines)
        elif k == 8:
            word = rng.choice([b"height", b"width"])
            v = rng.choice([b"-1", b"+1", b"1.0", b"0x1", b"", b"1 1", b" ", b"one", b"\xd9\xa1", b"1_0"])
            lines = [word + b" " + v if x.startswith(word) else x for x in lines]
            data = b"\n".join(lines)
        elif k == 9:
            lines[i] = lines[i] + rng.choice([b"\r", b"\r\r", b" \r", b"\r ", b"\t", b".", b"\x0b", b"\xc2\xa0"])
            data = b"\n".join(lines)
        elif k == 10:
            lines[i] = rng.choice([b" ", b"\t", b"\r", b"#", b"\xef\xbb\xbf"]) + lines[i]
            data = b"\n".join(lines)
        elif k == 11:
            data = data + rng.choice([b"\n", b"\r", b"\r\r", b"x", b" ", b"\t\n \n", b"\n\nx\n", b"\x00",
                                      b"....\n", b"\r\n\r\n", b"map\n"])
        elif k == 12:
            lines[i] = rng.choice([b"type", b"type ", b"type a b", b"Type octile", b"map ", b"MAP", b"map\r",
                                   b"height", b"width", b"height 1", b"width 1", b"maps", b"typeoctile"])
            data = b"\n".join(lines)
    return data


def big_map(rng):
    top = 1024
    h, w = rng.choice([(top, 1), (1, top), (top + 1, 1), (1, top + 1), (40, 33), (128, 128),
                       (129, 3), (3, 129), (top, 2), (2, top), (33, 40)])
    p = rng.choice([0, 0, 0.02, 0.3])
    rows = ["".join("@" if rng.random() < p else "." for _ in range(w)) for _ in range(h)]
    return rows


# ---------------------------------------------------------------- scripts
def pick_limits(rng, tight=None):
    """header limits to set: dict"""
    out = {}
    tight = rng.random() < 0.6 if tight is None else tight
    if not tight:
        return out
    for name, values in (("lane", [1, 1, 2, 3, 64]), ("outlet", [1, 1, 2, 3]), ("queue", [1, 1, 2, 3, 4]),
                         ("mailbox", [2, 2, 3, 4, 5, 8]), ("life", [1, 2, 3, 5, 10]),
                         ("orders", [2, 3, 10]), ("clock", [1, 2, 3, 5, 10, 40]),
                         ("chapter", [1, 2, 3, 5, 8, 13, 40]), ("chapters", [1, 2, 3])):
        if rng.random() < 0.3:
            out[name] = rng.choice(values)
    return out


class ScriptGen:
    def __init__(self, rng, grid, dense=None, ambiguous=False):
        self.rng, self.grid, self.ambiguous = rng, grid, ambiguous
        floor = [c for c in range(grid.size()) if grid.is_floor(c)]
        self.floor = floor
        top = min(16, len(floor))
        if top == 0:
            self.starts = [rng.choice([0, 1, grid.size()])]
        else:
            if dense is None:
                dense = rng.random() < 0.35
            n = top if dense else rng.randint(1, top)
            if dense and rng.random() < 0.3:
                n = max(1, n - 1)
            self.starts = rng.sample(floor, n)
            if rng.random() < 0.3:
                self.starts.sort()
        self.clients = rng.choice([1, 1, 1, 2, 2, 3, 5])

    def cell(self):
        rng = self.rng
        if self.floor and rng.random() < 0.93:
            if rng.random() < 0.15:
                return rng.choice(self.starts)
            return rng.choice(self.floor)
        return rng.choice([rng.randrange(self.grid.size()), self.grid.size(), self.grid.size() + 1,
                           2 ** 32 - 1, rng.randrange(2 ** 32)])

    def robot(self):
        rng = self.rng
        if rng.random() < 0.95:
            return rng.randrange(len(self.starts))
        return rng.choice([len(self.starts), len(self.starts) + 1, 15, 16, 511, 2 ** 32 - 1])

    def client(self):
        rng = self.rng
        if rng.random() < 0.97:
            return rng.randrange(self.clients)
        return rng.choice([self.clients, 63, 64, 2 ** 32 - 1])

    def header(self, tight=None):
        rng = self.rng
        lines = ["robots " + " ".join(str(c) for c in self.starts)]
        if self.clients != 1 or rng.random() < 0.1:
            lines.append(f"clients {self.clients}")
        self.lim = limits()
        for k, v in pick_limits(rng, tight).items():
            self.lim[k] = v
            lines.append(f"{k} {v}")
        x = rng.random()
        if x < 0.35:
            lines.append("ties south")
        elif x < 0.45:
            lines.append("ties plain")
        if rng.random() < 0.15:
            lines.append(f"turns {rng.choice([1, 2, 3, 16, 1000000])}")
        rng.shuffle(lines)
        return lines

    def order(self, c):
        rng = self.rng
        x = rng.random()
        if x < self.p_close:
            return "close"
        if x < self.p_close + self.p_withdraw:
            if rng.random() < 0.9:
                return f"withdraw {rng.randint(1, 1 + self.posted[c])}"
            return f"withdraw {rng.choice([0, 2 ** 64 - 1, 2 ** 32, 1000])}"
        self.posted[c] += 1
        return f"go {self.robot()} {self.cell()}"

    def events(self, count=None):
        rng = self.rng
        self.posted = {c: 0 for c in range(self.clients)}
        self.p_close = rng.choice([0, 0, 0.01, 0.05])
        self.p_withdraw = rng.choice([0, 0.1, 0.3])
        p_shut = rng.choice([0, 0, 0.01, 0.05])
        count = count or rng.choice([5, 15, 30, 60, 120])
        style = rng.choice(["mix", "mix", "batch", "flow"])
        out = []
        while len(out) < count:
            if style == "flow":                     # post, take, tick, drain: keep robots busy
                for _ in range(rng.randint(1, 6)):
                    c = rng.randrange(self.clients)
                    out.append(f"post {c} {self.order(c)}")
                    out.append(f"take {c}")
                out.append("tick" if rng.random() < 0.6 else f"tick {rng.randint(1, 8)}")
                for _ in range(rng.randint(0, 10)):
                    c = rng.randrange(self.clients)
                    out.append(f"give {c}")
                    out.append(f"collect {c}")
                if p_shut and rng.random() < 0.1:
                    out.append(f"shut {self.robot()}")
                continue
            if style == "batch":
                c = self.client()
                k = rng.randint(1, 20)
                for _ in range(k):
                    out.append(f"post {c} {self.order(c) if c in self.posted else 'go 0 0'}")
                for _ in range(rng.randint(0, k + 1)):
                    out.append(f"take {c}")
                out.append(f"tick {rng.randint(1, 30)}")
                for _ in range(rng.randint(0, 2 * k)):
                    out.append(f"give {c}")
                    if rng.random() < 0.7:
                        out.append(f"collect {c}")
                if p_shut and rng.random() < 0.2:
                    out.append(f"shut {self.robot()}")
                continue
            x = rng.random()
            c = self.client()
            if x < 0.27:
                out.append(f"post {c} {self.order(c) if c in self.posted else 'go 0 0'}")
            elif x < 0.52:
                out.append(f"take {c}")
            elif x < 0.70:
                out.append("tick")
            elif x < 0.73:
                out.append(f"tick {rng.randint(1, 12)}")
            elif x < 0.86:
                out.append(f"give {c}")
            elif x < 0.98 - p_shut:
                out.append(f"collect {c}")
            elif p_shut:
                out.append(f"shut {self.robot()}")
        if style == "mix" and rng.random() < 0.5:     # a clean end
            for c in range(self.clients):
                out += [f"give {c}", f"collect {c}"] * 3
        return out

    def text(self, lines):
        rng = self.rng
        if rng.random() < 0.6:
            return ("\n".join(lines) + "\n").encode()
        out = []
        for line in lines:
            while rng.random() < 0.05:
                out.append(rng.choice(["", "# comment", "#", " ", "\t ", "#tick", "# \xe9"]))
            if rng.random() < 0.1:
                line = rng.choice(["\t", "  ", " \t"]).join(line.split(" "))
            if rng.random() < 0.03:
                parts = line.split(" ")
                if parts[-1].isdigit() and len(parts[-1]) < 18:
                    parts[-1] = parts[-1].zfill(rng.choice([3, 20]))
                line = " ".join(parts)
            if self.ambiguous and rng.random() < 0.05:
                line = rng.choice([" " + line, line + " ", line + "\t"])
            out.append(line)
        eol = rng.choice(["\n", "\n", "\r\n"])
        text = eol.join(out) + (eol if rng.random() < 0.8 else "")
        return text.encode("latin-1")


def hostile_script(rng, lines):
    """near-valid: one or two faulty lines"""
    lines = list(lines)
    for _ in range(rng.choice([1, 1, 2])):
        k = rng.randrange(11)
        i = rng.randrange(len(lines) + 1)
        if k == 0:
            bad = ["", "tick 0", "tick 1000001", "tick -1", "tick 1 1", "take", "take 0 0", "take -1", "take x",
                   "give", "collect", "collect 0 0", "post 0", "post 0 go 0", "post 0 go 0 0 0", "post go 0 0",
                   "post 0 Go 0 0", "post 0 close 0", "shut", "shut 0 0", "shut x", "TICK", "tick\x00", "ticks",
                   "post 0 withdraw", "post 0 withdraw 1 1", "post 0 withdraw -1", "turns 1", "ties south",
                   "ties", "turns 0", "clients 1", "robots", "robots 0", "life 1", "script", "type octile",
                   "post 0 close", "shut 0", "post 0 withdraw 1", "post 4294967296 go 0 0",
                   "post 0 go 4294967296 0", "post 0 go 0 4294967296", "take 4294967296", "shut 4294967296",
                   "tick 18446744073709551616", "post 0 withdraw 18446744073709551616",
                   "post 0 withdraw 18446744073709551615", "take 000000000000000000000",
                   "take 00000000000000000000", "tick 0x1", "tick +1", "map", "events", "tick 1000000000000"]
            lines.insert(i, rng.choice(bad))
        elif k == 1:
            name = rng.choice(list(model.LIMIT_RANGES) + ["clients", "turns"])
            lines.insert(rng.randrange(min(4, len(lines)) + 1), f"{name} {rng.choice(BIG)}")
        elif k == 2 and lines:
            j = rng.randrange(len(lines))
            if i < len(lines):
                lines[i], lines[j] = lines[j], lines[i]
        elif k == 3 and i < len(lines):
            del lines[i]
        elif k == 4 and lines:
            lines.insert(i, rng.choice(lines))
        elif k == 5 and i < len(lines):
            parts = lines[i].split(" ")
            j = rng.randrange(len(parts))
            parts[j] = rng.choice([str(rng.choice(BIG)), "x", "-1", "1.0", "", "go", "0", "tick", "\r", "\xff"])
            lines[i] = " ".join(parts)
        elif k == 6 and i < len(lines):
            lines[i] = lines[i][:rng.randrange(len(lines[i]) + 1)]
        elif k == 7:
            lines = [x for x in lines if not x.startswith("robots")]
        elif k == 8:
            n = rng.choice([0, 15, 16, 17, 18])
            lines = [("robots " + " ".join(str(rng.randrange(20)) for _ in range(n))).strip()
                     if x.startswith("robots") else x for x in lines]
        elif k == 9 and i < len(lines):
            lines[i] += rng.choice(["\r", "\r\r", "\x0b", "\x0c", "\xa0", "x"])
        elif k == 10:
            name = rng.choice(["robots", "clients", "lane", "outlet", "queue", "mailbox", "life", "orders", "clock",
                               "chapter", "chapters", "ties", "turns"])
            lines.insert(i, f"{name} {rng.choice([1, 2, 0, 'plain', 'south', 'x', ''])}".rstrip())
    return lines


def hostile_bytes(rng, data):
    for _ in range(rng.choice([1, 1, 2, 4])):
        k = rng.randrange(5)
        p = rng.randrange(len(data) + 1)
        if k == 0:
            data = data[:p]
        elif k == 1 and p < len(data):
            data = data[:p] + bytes([rng.randrange(256)]) + data[p + 1:]
        elif k == 2:
            data = data[:p] + rng.choice([b"\n", b"\r", b"\r\n", b"\x00", b"\t", b" ", b"0", b"9", b"#", b"\xff",
                                          b"script\n", b"\nscript\n", b"tick\n"]) + data[p:]
        elif k == 3:
            q = rng.randrange(len(data) + 1)
            data = data[:min(p, q)] + data[max(p, q):]
        elif k == 4:
            data = data.replace(rng.choice([b"\n", b" ", b"0", b"tick", b"take"]),
                                rng.choice([b"\n", b"\r\n", b"\t", b"1", b"give"]), rng.randint(1, 3))
    return data


# ---------------------------------------------------------------- worlds (for traces)
def random_hooks(rng, n):
    """closures that keep random laws"""
    ties, arrivals, farewells = [], [], []
    for r in range(n):
        low = [rng.choice([0, 0, 1, 2, 5]) for _ in range(4)]
        high = [v + rng.choice([0, 0, 1, 3, 250 - v]) for v in low]
        salt = rng.randrange(10 ** 6)

        def tie(robot, cell, neighbour, d, tick, low=low, high=high, salt=salt):
            return low[d] + (hash((salt, cell, d, tick)) & 0xffff) % (high[d] - low[d] + 1)
        ties.append(((tuple(low), tuple(high)), tie))
        al = rng.choice([(0, 0), (3, 3), (0, 999), (5, 2 ** 32 - 1)])
        arrivals.append((al, lambda client, number, robot, cell, tick, al=al:
                         al[0] + (number * 7 + tick) % (al[1] - al[0] + 1)))
        fl = rng.choice([(0, 0), (1, 9), (0, 2 ** 32 - 1)])
        farewells.append((fl, lambda robot, cell, tick, fl=fl: fl[0] + (cell + tick) % (fl[1] - fl[0] + 1)))
    return model.Hooks(ties, arrivals, farewells)


def hostile_mover(rng):
    """A lawful step that brings the eldest nearer on a bridgeless map, with all other
    robots sent anywhere: the eldest first, the others with random goals and order."""
    def mover(w, goals):
        n = len(w.place)
        el = w.eldest()
        part = w.grid.parts()
        g, waits = [], []
        for r in range(n):
            if r == el:
                g.append(goals[r])
                waits.append(10 ** 9)
            elif rng.random() < 0.8:
                cells = [c for c in part if part[c] == part[w.place[r]]]
                far = goals[r] is not None and rng.random() < 0.7
                if far:                               # as far from its goal as may be
                    f = w.grid.field(goals[r])
                    g.append(max(cells, key=lambda c: f[c]))
                else:
                    g.append(rng.choice(cells))
                waits.append(rng.randrange(100))
            else:
                g.append(None)
                waits.append(None)
        plain = model.plain_hooks(n)
        return model.pibt_step(w.grid, w.place, waits, g, plain.ties, w.ticks + 1)
    return mover


def random_world(rng, rows, hooks=None, mover=None, lim=None, dense=None, clients=None, grid=None):
    grid = grid or Grid.of(rows)
    sg = ScriptGen(rng, grid, dense)
    if not sg.floor:
        return None, None
    lim = lim or limits(**{k: v for k, v in pick_limits(rng, None).items()
                           if k in ("queue", "life", "mailbox")})
    lim["mailbox"] = 65536 if rng.random() < 0.7 else max(8, lim["mailbox"])
    n = len(sg.starts)
    if hooks is None:
        hooks = rng.choice([model.plain_hooks, model.south_hooks])(n)
    elif hooks == "random":
        hooks = random_hooks(rng, n)
    w = World(grid, sg.starts, clients or sg.clients, lim, hooks, mover)
    w.log_taken = [[] for _ in w.closed]
    w.log_given = [[] for _ in w.closed]
    return w, sg


def drive(rng, w, sg, steps, p_take=0.5, p_shut=0.01, p_close=0.01, p_withdraw=0.1, greedy=False):
    """random takes, ticks, shuts straight on the world"""
    n, clients = len(w.place), len(w.closed)
    for _ in range(steps):
        x = rng.random()
        if x < p_take:
            c = rng.randrange(clients)
            y = rng.random()
            if y < p_close:
                o = ("close",)
            elif y < p_close + p_withdraw:
                o = ("withdraw", rng.randint(1, w.accepted[c] + 1))
            else:
                r = rng.randrange(n) if rng.random() < 0.97 else n
                cell = sg.cell()
                o = ("go", r, cell)
            try:
                w.take(c, o)
                w.log_taken[c].append(o)
            except model.TakeFault:
                while w.next_notice(c) is not None and rng.random() < 0.9:
                    w.log_given[c].append(w.give(c))
        elif x < p_take + p_shut:
            try:
                w.shut(rng.randrange(n))
            except model.ShutFault:
                pass
        else:
            try:
                w.tick()
            except model.TickFault:
                return


# ---------------------------------------------------------------- traces
def mutate_value(rng, v):
    """one random change of a trace value, anywhere"""
    v = json.loads(json.dumps(v))
    paths = []

    def walk(x, path):
        paths.append(path)
        if isinstance(x, dict):
            for k in x:
                walk(x[k], path + [k])
        elif isinstance(x, list):
            for i, y in enumerate(x):
                walk(y, path + [i])
    walk(v, [])
    paths = [p for p in paths if p]
    # favour shallow parts and the opening over long lists of entries
    deep = [p for p in paths if len(p) > 2] or paths
    path = rng.choice(deep if rng.random() < 0.9 else paths)
    at = v
    for k in path[:-1]:
        at = at[k]
    k = path[-1]
    x = at[k]
    kind = rng.randrange(10)
    if isinstance(x, bool):
        at[k] = (not x) if kind < 8 else rng.choice([None, 0, 1, "true"])
    elif isinstance(x, int):
        at[k] = rng.choice([x + 1, x + 1, max(0, x - 1), max(0, x - 1), rng.randint(0, 12), rng.choice(BIG),
                            -1, 1.5, None, str(x), True, [x]][:7 if kind < 8 else 12])
    elif x is None:
        at[k] = rng.choice([0, 1, False, []])
    elif isinstance(x, str):
        at[k] = rng.choice(["go", "close", "withdraw", "accepted", "closed", "refused", "withdrawn", "take", "tick",
                            "shut", "", x.upper()])
    elif isinstance(x, list):
        if kind < 2 and x:
            x.pop(rng.randrange(len(x)))
        elif kind < 4 and x:
            i = rng.randrange(len(x))
            x.insert(i, json.loads(json.dumps(rng.choice(x))))
        elif kind < 6 and len(x) > 1:
            i, j = rng.randrange(len(x)), rng.randrange(len(x))
            x[i], x[j] = x[j], x[i]
        elif kind < 7:
            x.append(rng.choice([0, [], [0, 0], [0, 0, 0], [0, 0, 0, 0], None, ["shut", 0], ["tick", [], [], []]]))
        elif kind < 8:
            x.clear()
        elif isinstance(at, list):
            del at[k]
        else:
            at[k] = rng.choice([None, {}, [], 0])
    elif isinstance(x, dict):
        if kind < 4 and x:
            del x[rng.choice(list(x))]
        elif kind < 7:
            x[rng.choice(["extra", "", "Chapter", "tick", "version"])] = rng.choice([0, None, [], {}])
        else:
            at[k] = rng.choice([None, [], 0, "x"])
    return v


def targeted(rng, v):
    """changes that keep the form and aim at one rule"""
    v = json.loads(json.dumps(v))
    o, es = v["opening"], v["entries"]
    k = rng.randrange(26)
    if k >= 19:
        return targeted_deep(rng, v, k)
    if k >= 16:                                        # a swap of two neighbours, a hop, a shared cell
        place = [r[0] for r in o["robots"]]
        spots = []
        for at, e in enumerate(es):
            if e[0] == "tick" and len(e[1]) == len(place):
                for i in range(len(place)):
                    for j in range(i):
                        if abs(place[i] - place[j]) < 12:
                            spots.append((at, i, j, place[i], place[j]))
                place = e[1]
        if spots:
            near = [x for x in spots if abs(x[3] - x[4]) in (1, 2, 3, 4, 5, 6)]
            at, i, j, a, b = rng.choice(near or spots)
            to = es[at][1]
            if k == 16:
                to[i], to[j] = b, a
            elif k == 17:
                to[i] = to[j]
            else:
                to[i] = b
            if rng.random() < 0.8:                     # cut behind it, keep arrivals in step
                del es[at + 1:]
    elif k == 0 and o["robots"]:
        r = rng.choice(o["robots"])
        r[3].append([rng.randrange(len(o["clients"]) + 1), rng.randint(0, 4), rng.randint(0, 12)])
        if r[2] is None and rng.random() < 0.8:
            r[2] = rng.randint(0, 3)
        if rng.random() < 0.8:
            o["tick"] = max(o["tick"], rng.randint(0, 5))
            for c in o["clients"]:
                c[0] += 4
                c[1] += 4
                c[2] = c[0] + c[1] - sum(1 for q in o["robots"] for e in q[3] if e[0] == o["clients"].index(c))
    elif k == 1 and o["clients"]:
        c = rng.choice(o["clients"])
        c[rng.randrange(3)] += rng.choice([-1, 1, 1, 2, 2 ** 57])
        c[0], c[1], c[2] = (abs(x) for x in c[:3])
    elif k == 2 and o["clients"]:
        c = rng.choice(o["clients"])
        c[3] = not c[3]
        if rng.random() < 0.5:
            c[0] += 1
            c[2] += 1
    elif k == 3 and o["robots"]:
        rng.choice(o["robots"])[rng.choice([4, 5])] = [rng.randint(0, 3), rng.randint(0, 3)]
    elif k == 4:
        o["queue"] = rng.choice([0, 1, 2, 65536, 65537])
    elif k == 5:
        o["life"] = rng.choice([0, 1, 2, 2 ** 40, 2 ** 40 + 1])
    elif k == 6 and es:
        del es[rng.randrange(len(es))]
    elif k == 7 and es:
        i = rng.randrange(len(es))
        es.insert(i, json.loads(json.dumps(es[i])))
    elif k == 8 and len(es) > 1:
        i = rng.randrange(len(es) - 1)
        es[i], es[i + 1] = es[i + 1], es[i]
    elif k == 9:
        ticks = [e for e in es if e[0] == "tick"]
        if ticks:
            e = rng.choice(ticks)
            if e[1]:
                e[1][rng.randrange(len(e[1]))] = rng.choice([rng.randint(0, 12)] + e[1])
    elif k == 10:
        ticks = [e for e in es if e[0] == "tick" and e[2]]
        if ticks:
            e = rng.choice(ticks)
            x = rng.randrange(5)
            if x == 0:
                e[2].reverse()
            elif x == 1:
                e[2].pop()
            else:
                e[2][0][rng.randrange(4)] += 1
    elif k == 11:
        ticks = [e for e in es if e[0] == "tick"]
        if ticks:
            e = rng.choice(ticks)
            if e[3] and rng.random() < 0.7:
                if rng.random() < 0.5:
                    e[3].pop()
                else:
                    e[3][0][1] += rng.choice([1, 10, 1000])
            else:
                e[3].append([rng.randrange(len(o["robots"]) + 1), rng.randint(0, 10)])
    elif k == 12:
        i = rng.randrange(len(es) + 1)
        es.insert(i, ["shut", rng.randrange(len(o["robots"]) + 1)] + ([rng.choice([0, 0, 5])]
                                                                    if rng.random() < 0.6 else []))
    elif k == 13:
        takes = [e for e in es if e[0] == "take"]
        if takes:
            e = rng.choice(takes)
            e[3] = rng.choice([["accepted", rng.randint(0, 6)], ["closed"], ["refused", rng.randint(0, 11)],
                               ["withdrawn"]])
    elif k == 14:
        takes = [e for e in es if e[0] == "take"]
        if takes:
            e = rng.choice(takes)
            if rng.random() < 0.4:
                e[1] += 1
            else:
                e[2] = rng.choice([["go", rng.randint(0, 4), rng.randint(0, 12)], ["close"],
                                   ["withdraw", rng.randint(0, 5)]])
    elif k == 15:
        v["version"] = rng.choice([0, 1, 2, 3, -1, 9, 2 ** 63, 2 ** 64 - 1, 2 ** 64, -2 ** 63, -2 ** 63 - 1])
        if rng.random() < 0.3:
            v["chapter"] = rng.choice([1, 2 ** 32 - 1, 2 ** 32])
    return v


def targeted_deep(rng, v, k):
    """errands of the opening, stamps, farewells, shuts"""
    o, es = v["opening"], v["entries"]
    full = [r for r in o["robots"] if r[3]]
    if k in (19, 20) and full:
        r = rng.choice(full)
        x = rng.randrange(7)
        if x == 0 and len(r[3]) > 1:                   # not rising
            i = rng.randrange(len(r[3]) - 1)
            r[3][i], r[3][i + 1] = r[3][i + 1], r[3][i]
        elif x == 1:                                   # twice, on two robots or on one
            e = list(rng.choice(r[3]))
            t = rng.choice(o["robots"])
            t[3].append([e[0], e[1], t[0]])
            if t[2] is None:
                t[2] = 0
            c = o["clients"][e[0]]
            if rng.random() < 0.5:
                c[2] -= 1
        elif x == 2:
            e = rng.choice(r[3])
            e[1] = rng.choice([0, 1, o["clients"][e[0]][1], o["clients"][e[0]][1] + 1])
        elif x == 3:
            e = rng.choice(r[3])
            e[2] = rng.randint(0, 12)
        elif x == 4:
            r[2] = rng.choice([o["tick"], o["tick"] + 1, None, 0])
        elif x == 5:
            o["queue"] = rng.choice([len(r[3]), len(r[3]) - 1, len(r[3]) + 1])
        else:
            o["life"] = max(1, max(c[1] for c in o["clients"]) + rng.choice([-1, 0, 0, 1]))
        return v
    if k >= 24:                                        # two faults in one entry
        shuts = [i for i, e in enumerate(es) if e[0] == "shut"]
        ticks = [e for e in es if e[0] == "tick" and (e[2] or e[3])]
        if k == 24 and shuts:
            i = rng.choice(shuts)
            again = ["shut", es[i][1]] + ([rng.choice([0, 4294967295])] if rng.random() < 0.5 else [])
            es.insert(rng.randint(i + 1, len(es)), again)
        elif ticks:
            e = rng.choice(ticks)
            for a in rng.sample(e[2] + e[3], min(2, len(e[2] + e[3]))):
                a[-1] = rng.choice([a[-1] + 1, 4294967295])
            x = rng.random()
            if x < 0.3:
                e[3].append([rng.randrange(len(o["robots"])), 0])
            elif x < 0.5 and e[3]:
                e[3].pop()
            elif x < 0.7 and e[2]:
                rng.choice(e[2])[rng.choice([0, 1, 2])] += 1
            elif x < 0.8 and e[1]:
                e[1][rng.randrange(len(e[1]))] = rng.choice(e[1])
        return v
    if k == 21:                                        # stamps against laws
        for r in o["robots"]:
            if rng.random() < 0.7:
                r[4] = rng.choice([[0, 0], [1, 5], [0, 4294967295], [3, 3]])
            if rng.random() < 0.7:
                r[5] = rng.choice([[0, 0], [1, 5], [0, 4294967295], [3, 3]])
        return v
    if k == 22:                                        # one stamp, farewell or number
        hits = [e for e in es if (e[0] == "tick" and (e[2] or e[3])) or (e[0] == "shut" and len(e) == 3)]
        if hits:
            e = rng.choice(hits)
            if e[0] == "shut":
                if rng.random() < 0.5:
                    e[2] += rng.choice([1, 1000, 4294967295 - e[2]])
                else:
                    e.pop()
            else:
                part = rng.choice([x for x in (e[2], e[3]) if x])
                a = rng.choice(part)
                a[-1] = rng.choice([a[-1] + 1, max(0, a[-1] - 1), 4294967295, 1000])
                if rng.random() < 0.3 and e[3]:
                    e[3].pop()
        return v
    for c in o["clients"]:                             # counts at their bounds
        if rng.random() < 0.6:
            mine = sum(1 for r in o["robots"] for e in r[3] if e[0] == o["clients"].index(c))
            top = c[0] + c[1] - mine
            c[2] = rng.choice([top, top + 1, c[0], max(0, c[0] - 1), max(0, top - 1)])
            if rng.random() < 0.2:
                c[0], c[2] = 2 ** 57 + rng.choice([-1, 0, 1]), 2 ** 57 + rng.choice([-1, 0, 1])
            if rng.random() < 0.2:
                c[3] = True
    return v


def trace_text(rng, v, wild=True):
    """JSON text of a value: compact in key order, or with free white space and order"""
    if not wild or rng.random() < 0.4:
        return json.dumps(v, separators=(",", ":"), sort_keys=True).encode()

    def ws():
        return rng.choice(["", "", "", " ", "\n", "\t", "\r\n", "  "])

    def esc(s):
        out = ""
        for c in s:
            x = rng.random()
            out += f"\\u{ord(c):04x}" if x < 0.05 else f"\\u{ord(c):04X}" if x < 0.08 else c
        return '"' + out + '"'

    def write(x):
        if isinstance(x, dict):
            ks = list(x)
            rng.shuffle(ks)
            return "{" + ws() + ",".join(ws() + esc(k) + ws() + ":" + ws() + write(x[k]) + ws() for k in ks) + "}"
        if isinstance(x, list):
            return "[" + ws() + ",".join(ws() + write(y) + ws() for y in x) + "]"
        if isinstance(x, str):
            return esc(x)
        return json.dumps(x)
    return (ws() + write(v) + ws()).encode()


def hostile_trace_text(rng, data):
    for _ in range(rng.choice([1, 1, 2])):
        k = rng.randrange(14)
        p = rng.randrange(len(data) + 1)
        if k == 0:
            data = data[:p]
        elif k == 1 and p < len(data):
            data = data[:p] + bytes([rng.randrange(256)]) + data[p + 1:]
        elif k == 2:
            data = data[:p] + rng.choice([b",", b"]", b"[", b"{", b"}", b":", b'"', b"0", b"-", b".", b"e1", b" ",
                                          b"\x00", b"\xff", b"\xef\xbb\xbf", b"null", b"/**/"]) + data[p:]
        elif k == 3:
            data = data + rng.choice([b" ", b"\n", b"x", b"{}", b"\x00", b",", b"]", b"\xc0"])
        elif k == 4:                                   # a number in another form
            import re
            ns = list(re.finditer(rb"\d+", data))
            if ns:
                m = rng.choice(ns)
                new = rng.choice([m.group() + b".0", m.group() + b"e0", b"-" + m.group(), b"0" + m.group(), b"-0",
                                  b"18446744073709551615", b"18446744073709551616", b"1e400", b"4294967296",
                                  b"1E+2", b"-9223372036854775808", b"-9223372036854775809", b"1e-400",
                                  b"9" * 400, b"+1", b"1.", b".5", b"0x1", b"NaN"])
                data = data[:m.start()] + new + data[m.end():]
        elif k == 5:                                   # a key twice
            key = rng.choice([b'"version"', b'"chapter"', b'"entries"', b'"tick"', b'"life"', b'"queue"'])
            val = rng.choice([b"1", b"2", b"0", b"[]", b"null", b"9", b'"1"', b"1.0", b"16"])
            data = data.replace(key + b":", key + b":" + val + b"," + key + b":", 1)
        elif k == 6:                                   # and the last one counts
            val = rng.choice([b"1", b"2", b"0", b"9", b'"1"', b"1.0", b"-1"])
            data = data.rstrip()
            if data.endswith(b"}"):
                data = data[:-1] + b',"version":' + val + b"}"
        elif k == 7:
            n = rng.choice([120, 125, 126, 127, 128, 129, 2000, 100000])
            deep = rng.choice([b"[" * n + b"]" * n, b'{"a":' * n + b"1" + b"}" * n, b"[" * n])
            x = rng.random()
            if x < 0.4:
                data = deep
            elif data.startswith(b"{"):
                data = b'{"extra":' + deep + b"," + data[1:]
        elif k == 8:
            data = rng.choice([b"", b"{}", b"[]", b"null", b"1", b'"x"', b'{"version":1}', b'{"version":2}',
                               b'{"version":3}', b'{"version":true}', b'{"version":null}', b'{"version":-1}',
                               b'{"version":1.0}', b'{"version":1,"chapter":0}', b'{"version":1e0}', b"true", b"nul",
                               b'{"version":[1]}', b'[{"version":1}]', b'{"version":9,"version":1}',
                               b'{"version":1,"version":9}', b" ", b"\n", b"-", b"--1", b'{"version":9,}',
                               b'{"version":99999999999999999999}', b'{"version":-0}', b'{"Version":1}'])
        elif k == 9:
            s = rng.choice([b"\\ud800", b"\\udc00", b"\\ud83d\\ude00", b"\\ud83dx", b"\\u00e9", b"\\x41", b"\\",
                            b"\x1f", b"\t", b"\x7f", b"\xc3\xa9", b"\xed\xa0\x80", b"\\u12", b"\\/"])
            if data.startswith(b"{"):
                data = b'{"' + s + b'":0,' + data[1:]
        elif k == 10:
            data = data.replace(b"true", rng.choice([b"True", b"1", b"tru", b"null"]), 1)
        elif k == 11:
            data = data.replace(b",", b", ,", 1) if rng.random() < 0.5 else data.replace(b"]", b",]", 1)
        elif k == 12:
            w1 = rng.choice([b'"take"', b'"tick"', b'"go"', b'"accepted"', b'"refused"', b'"shut"', b'"close"'])
            w2 = rng.choice([b'"take"', b'"tick"', b'"withdraw"', b'"withdrawn"', b'"closed"', b'"Go"', b'0'])
            data = data.replace(w1, w2, 1)
        elif k == 13:
            data = data.replace(b'"version":1', b'"version":2') if b'"version":1' in data else \
                data.replace(b'"version":2', b'"version":1')
    return data


def random_trace(rng):
    """(rows, trace value): a legal chapter of a random world, chapter 0 or later"""
    while True:
        rows = floors(rng)
        if rng.random() < 0.1:
            rows = bridgeless_floor(rng)
        w, sg = random_world(rng, rows, hooks="random" if rng.random() < 0.5 else None,
                             mover=hostile_mover(rng) if rng.random() < 0.2 else None)
        if w is not None:
            break
    if rng.random() < 0.4:
        drive(rng, w, sg, rng.randint(1, 40), p_take=rng.choice([0.5, 0.9]), p_shut=0.03, p_close=0.03)
        w.next_chapter()
    drive(rng, w, sg, rng.choice([0, 1, 3, 8, 20, 40]), p_shut=0.04, p_close=0.03, p_withdraw=0.2)
    v = model.chapter_value(w.chapter())
    v = json.loads(json.dumps(v))
    if rng.random() < 0.3:             # both versions are read
        v["version"] = rng.choice([1, 2])
    return rows, v


# ---------------------------------------------------------------- tight and edge cases
def precedence_script(rng):
    """refusals that stand together: which one is named"""
    rows = rng.choice(["..@.", "..@./....@"[:4], ".@./...", "..", "..@..", ".G.@./..@@."])
    rows = rows.split("/")
    rows = [r.ljust(max(len(x) for x in rows), "@") for r in rows]
    grid = Grid.of(rows)
    floor = [c for c in range(grid.size()) if grid.is_floor(c)]
    n = rng.randint(1, min(2, len(floor)))
    starts = rng.sample(floor, n)
    clients = rng.choice([1, 2])
    lines = ["robots " + " ".join(map(str, starts)), f"clients {clients}"]
    for name, vals in (("queue", [1, 1, 2, 16]), ("life", [1, 1, 2, 1000000]), ("mailbox", [2, 3, 4, 64, 64, 64]),
                       ("chapter", [1, 2, 3, 5, 9, 65536, 65536, 65536]), ("clock", [1, 2, 1000000, 1000000]),
                       ("lane", [1, 2, 64, 64]), ("outlet", [1, 2, 64])):
        lines.append(f"{name} {rng.choice(vals)}")
    if rng.random() < 0.5:
        lines.append("ties south")
    rng.shuffle(lines)
    cells = list(range(grid.size() + 2)) + [2 ** 32 - 1]
    bias = rng.choice(["go", "shut", "tick", "mail"])
    for _ in range(rng.choice([4, 8, 16, 40])):
        c = rng.randrange(clients) if rng.random() < 0.97 else clients
        x = rng.random()
        if x < 0.55:
            y = rng.random()
            if y < (0.1 if bias != "go" else 0.04):
                o = "close"
            elif y < 0.3:
                o = f"withdraw {rng.randint(0, 4)}"
            else:
                o = f"go {rng.randrange(n) if rng.random() < 0.85 else n} {rng.choice(floor if rng.random() < 0.6 else cells)}"
            lines.append(f"post {c} {o}")
            if rng.random() < 0.85:
                lines.append(f"take {c}")
        elif x < 0.65:
            lines.append(f"take {c}")
        elif x < (0.72 if bias != "tick" else 0.85):
            lines.append(rng.choice(["tick", "tick", "tick 2"]))
        elif x < (0.80 if bias != "shut" else 0.90):
            lines.append(f"shut {rng.randrange(n + 1)}")
        elif x < 0.9:
            lines.append(f"give {c}")
        else:
            lines.append(f"collect {c}")
    if rng.random() < 0.3:
        lines.append(f"shut {rng.randrange(n + 1)}")
    return rows, lines


EDGE_LINES = [
    " # x", "\t#", "# x", "#", "##", " ", "\t", " \t ", "tick 1000001", "tick 0", "tick 00000000000000000001",
    "tick 000000000000000000001", "tick 18446744073709551615", "tick 18446744073709551616", "tick 1 ", "tick  1",
    "tick\t1", "tick 1 #", "tick # 1", "tick tick", "life 18446744073709551615", "life 18446744073709551616",
    "life 1099511627776", "life 1099511627777", "life 0", "life 1", "life 00000000000000000001",
    "life 000000000000000000001", "life 99999999999999999999", "life 100000000000000000000", "queue 0", "queue 1",
    "queue 65536", "queue 65537", "queue 4294967295", "queue 4294967296", "mailbox 1", "mailbox 2", "mailbox 65536",
    "mailbox 65537", "mailbox 0", "orders 1", "orders 2", "orders 4611686018427387904", "orders 4611686018427387905",
    "clock 0", "clock 1", "clock 281474976710656", "clock 281474976710657", "chapter 0", "chapter 1",
    "chapter 16777216", "chapter 16777217", "chapters 0", "chapters 1", "chapters 4294967295",
    "chapters 4294967296", "clients 0", "clients 1", "clients 64", "clients 65", "clients 4294967295",
    "clients 4294967296", "lane 0", "lane 1", "lane 65536", "lane 65537", "outlet 0", "outlet 65536", "outlet 65537",
    "turns 0", "turns 1", "turns 1000000", "turns 1000001", "turns 4294967296", "ties plain", "ties south",
    "ties north", "ties", "ties plain south", "ties PLAIN", "robots", "robots 0", "robots 0 0", "robots 1 0",
    "robots 4294967295", "robots 4294967296", "robots 0 1 2 3 4 5 6 7 8 9 10 11 12 13 14 15",
    "robots 0 1 2 3 4 5 6 7 8 9 10 11 12 13 14 15 16", "post 0 go 0 1", "post 0 go 0 4294967295",
    "post 0 go 4294967295 0", "post 4294967295 go 0 0", "post 0 go 0 4294967296", "post 0 go 4294967296 0",
    "post 4294967296 go 0 0", "post 00000000000000000000 go 0 0", "post 000000000000000000000 go 0 0",
    "post 0 close", "post 0 closed", "post 0 close 1", "post 4294967295 close", "post 0 withdraw 0",
    "post 0 withdraw 1", "post 0 withdraw", "post 0 withdraw 18446744073709551615",
    "post 0 withdraw 18446744073709551616", "post 4294967295 withdraw 1", "post", "post 0", "post 0 go",
    "post 0 go 0", "post 0 go 0 1 2", "take 4294967295", "take 4294967296", "give 4294967295", "collect 4294967295",
    "give 4294967296", "shut 0", "shut 1", "shut 4294967295", "shut 4294967296", "shut", "take\x000", "tick\x0b",
    "tick\xa0", "tick\r", "\r", "Tick", "script", "map", "tick -0", "tick 1e0", "tick ٣", "take 0\r0"]

SHARP_LINES = ["tick 1000001", "tick 0", " # x", "\t# x", "#", "tick 000000000000000000001", "tick 00000000000000000001",
               "life 000000000000000000001", "life 1099511627776", "life 1099511627777", "clients 64", "clients 65",
               "clients 0", "queue 65536", "queue 65537", "mailbox 1", "mailbox 2", "orders 1", "orders 2",
               "orders 4611686018427387904", "orders 4611686018427387905", "clock 281474976710656",
               "clock 281474976710657", "chapter 16777216", "chapter 16777217", "chapters 4294967295",
               "chapters 4294967296", "lane 2", "turns 1000000", "turns 1000001", "post 0 go 0 4294967296",
               "take 4294967296", "post 0 withdraw 18446744073709551615", "post 0 withdraw 18446744073709551616"]

EDGE_MAPS = [
    b"", b"\n", b"\r", b"\r\n", b" ", b"type", b"type ", b"type x", b"type x\n", b"type  x\n", b"type\tx \t\n",
    b" type x\nheight 1\nwidth 1\nmap\n.\n", b"type x y\nheight 1\nwidth 1\nmap\n.\n",
    b"type x\r\r\nheight 1\nwidth 1\nmap\n.\n", b"type x\rheight 1\nwidth 1\nmap\n.\n",
    b"type \xff\xfe\x00\nheight 1\nwidth 1\nmap\n.\n", b"type x\nheight 1\nheight 1\nmap\n.\n",
    b"type x\nwidth 1\nwidth 1\nmap\n.\n", b"type x\nwidth 1\nheight 1\nmap\n.\n",
    b"type x\nwidth 1\nheight 1\nmap\n.", b"type x\nwidth 1\nheight 1\nmap\n.\r", b"type x\nwidth 1\nheight 1\nmap\n.\r\r",
    b"type x\nwidth 1\nheight 1\nmap\n.\r\r\n", b"type x\nwidth 1\nheight 1\nmap\n. \r\n", b"type x\nwidth 1\nheight 1\nmap\n.\r \n",
    b"type x\nheight 0\nwidth 1\nmap\n", b"type x\nheight 1\nwidth 0\nmap\n\n", b"type x\nheight 0\nwidth 1\nmaq\n",
    b"type x\nheight 1025\nwidth 1\n", b"type x\nheight 1025\nwidth 1\nmap", b"type x\nheight 129\nwidth 1\nmap",
    b"type x\nheight 99999999999999999999999999\nwidth 1\nmap\n", b"type x\nheight 4294967297\nwidth 1\nmap\n.\n",
    b"type x\nheight 18446744073709551617\nwidth 1\nmap\n.\n", b"type x\nheight 340282366920938463463374607431768211457\nwidth 1\nmap\n.\n",
    b"type x\nheight 000000000000000000000000000001\nwidth 01\nmap\n.\n", b"type x\nheight\t1\nwidth \t 1\nmap\n.\n",
    b"type x\nheight1\nwidth 1\nmap\n.\n", b"type x\nheight 1x\nwidth 1\nmap\n.\n", b"type x\nheight 1 1\nwidth 1\nmap\n.\n",
    b"type x\nheight -1\nwidth 1\nmap\n.\n", b"type x\nheight +1\nwidth 1\nmap\n.\n", b"type x\nheight \nwidth 1\nmap\n.\n",
    b"type x\nheight 1\nwidth 1\n map\n.\n", b"type x\nheight 1\nwidth 1\nmap x\n.\n", b"type x\nheight 1\nwidth 1\nmap \t\n.\n",
    b"type x\nheight 1\nwidth 1\n\nmap\n.\n", b"type x\nheight 1\nwidth 3\nmap\n. .\n", b"type x\nheight 1\nwidth 3\nmap\n.x\n",
    b"type x\nheight 1\nwidth 3\nmap\n.xxx\n", b"type x\nheight 1\nwidth 3\nmap\n ..\n", b"type x\nheight 1\nwidth 3\nmap\n.. \n",
    b"type x\nheight 1\nwidth 3\nmap\n...x\n", b"type x\nheight 1\nwidth 3\nmap\n.\x00.\n", b"type x\nheight 2\nwidth 3\nmap\n.x.\n....\n",
    b"type x\nheight 2\nwidth 3\nmap\n....\n.x.\n", b"type x\nheight 2\nwidth 2\nmap\n..\n\n..\n", b"type x\nheight 1\nwidth 2\nmap\n..\n\n\n \t\n",
    b"type x\nheight 1\nwidth 2\nmap\n..\n\nx", b"type x\nheight 1\nwidth 2\nmap\n..\n \r\nx", b"type x\nheight 1\nwidth 2\nmap\n..\n\r\r\n",
    b"type x\nheight 1\nwidth 2\nmap\n..\n\x0c\n", b"type x\nheight 1\nwidth 2\nmap\n..\n\r", b"type x\nheight 1\nwidth 2\nmap\n..\n..\n",
    b"\xef\xbb\xbftype x\nheight 1\nwidth 1\nmap\n.\n", b"type x\nheight 1\nwidth 7\nmap\n.GS@OTW\n", b"type x\nheight 1\nwidth 2\nmap\n.g\n",
    b"type x\nheight 1\nwidth 2\nmap\n.s\n", b"type x\nheight 1\nwidth 2\nmap\n@@\n", b"type x\nheight 2\nwidth 1\nmap\n.\n",
    b"type x\nHeight 1\nwidth 1\nmap\n.\n", b"type x\nheight 1\nwidth 1\nMap\n.\n", b"type x\n\nheight 1\nwidth 1\nmap\n.\n"]

EDGE_NUMBERS = ["1.0", "1e0", "1E0", "10e-1", "-0", "-0.0", "-1", "0.0", "00", "01", "+1", "1.", ".1", "1e400", "-1e400", "1e-400",
                "4294967295", "4294967296", "18446744073709551615", "18446744073709551616", "9223372036854775808",
                "-9223372036854775808", "-9223372036854775809", "144115188075855872", "144115188075855873",
                "1099511627776", "1099511627777", "65536", "65537", "0", "1", "2", "null", "true", '"1"', "[]", "{}",
                "1" + "0" * 308, "1" + "0" * 309, "0x1", "NaN", "1_0", "1 0"]


def edge_trace(rng):
    """rows, text: a small known trace with one edge in it"""
    known = [
        ("../..", '{"chapter":0,"entries":[["tick",[1,0],[],[]]],"opening":{"clients":[[0,0,0,false]],"life":1000000,'
                  '"queue":16,"robots":[[0,false,null,[],[0,0],[0,0]],[1,false,null,[],[0,0],[0,0]]],"tick":0},"version":1}'),
        (".", '{"chapter":0,"entries":[["take",0,["go",0,0],["accepted",1]],["tick",[0],[[0,0,1,0]],[]]],"opening":'
              '{"clients":[[0,0,0,false]],"life":1000000,"queue":16,"robots":[[0,false,null,[],[0,0],[0,0]]],"tick":0},"version":1}'),
        ("...", '{"chapter":1,"entries":[["tick",[2],[[0,0,1,0]],[]]],"opening":{"clients":[[1,1,1,false]],"life":1000000,'
                '"queue":16,"robots":[[1,false,1,[[0,1,2]],[0,0],[0,0]]],"tick":1},"version":1}'),
        ("...", '{"chapter":3,"entries":[["shut",0],["tick",[1,2],[[1,1,2,7]],[]],["tick",[2,1],[],[]]],"opening":'
                '{"clients":[[5,2,6,true],[3,2,4,false]],"life":9,"queue":2,"robots":[[0,false,4,[[0,2,2]],[0,9],[3,4]],'
                '[2,false,0,[[1,2,2]],[5,7],[0,0]]],"tick":5},"version":1}'),
        ("..", '{"chapter":0,"entries":[["take",0,["close"],["closed"]],["take",0,["close"],["refused",1]],["shut",0,0],'
               '["take",1,["go",0,0],["refused",3]],["shut",0,0]],"opening":{"clients":[[0,0,0,false],[0,0,0,false]],"life":1,'
               '"queue":1,"robots":[[0,false,null,[],[0,0],[0,0]]],"tick":0},"version":1}'),
        ("...", '{"chapter":0,"entries":[["take",0,["go",0,1],["accepted",1]],["take",0,["go",0,2],["accepted",2]],["take",0,'
                '["withdraw",2],["withdrawn"]],["take",0,["withdraw",1],["refused",10]],["take",0,["withdraw",3],["refused",9]]],'
                '"opening":{"clients":[[0,0,0,false]],"life":1000000,"queue":16,"robots":[[0,false,null,[],[0,0],[0,0]]],'
                '"tick":0},"version":2}')]
    rows, text = rng.choice(known)
    if rng.random() < 0.3:
        text = text.replace('"version":1', '"version":2')
    data = text.encode()
    x = rng.random()
    if x < 0.35:
        import re
        ns = list(re.finditer(rb"\d+", data))
        m = rng.choice(ns)
        data = data[:m.start()] + rng.choice(EDGE_NUMBERS).encode() + data[m.end():]
    elif x < 0.5:
        data = trace_text(rng, targeted(rng, json.loads(text)), wild=False)
    elif x < 0.54:
        data = trace_text(rng, mutate_value(rng, json.loads(text)))
    elif x < 0.6:                                      # one key more, or one less
        v = json.loads(text)
        d = rng.choice([v, v["opening"]])
        if rng.random() < 0.6:
            d[rng.choice(["extra", "", "Version", "chapter", "robots", "\u00e9"])] = rng.choice([0, None, [], {}, 1])
        else:
            del d[rng.choice(list(d))]
        data = trace_text(rng, v)
    elif x < 0.7:
        n = rng.choice([125, 126, 127, 128])
        inner = rng.choice([b"[" * n + b"]" * n, b'{"a":' * n + b"0" + b"}" * n])
        data = rng.choice([inner, b'{"version":' + inner + b"}", b'{"x":' + inner + b',"version":9}',
                           b'{"x":' + inner + b',"version":1}'])
    elif x < 0.8:
        key = rng.choice([b'"version"', b'"chapter"', b'"life"', b'"queue"', b'"tick"', b'"entries"'])
        val = rng.choice([b"1", b"2", b"9", b"null", b"1.0", b"[]", b"{}", b'"1"', b"-1"])
        if rng.random() < 0.5:
            data = data.replace(key + b":", key + b":" + val + b"," + key + b":", 1)
        else:
            at = data.rfind(b"}") if key in (b'"version"', b'"chapter"', b'"entries"') else data.find(b'},"version"')
            data = data[:at] + b"," + key + b":" + val + data[at:]
    else:
        data = hostile_trace_text(rng, data)
    return rows.split("/"), data


def opening_trace(rng):
    """A random opening that is in order, and then at most one clause of rule 1 at or over
    its bound; no entries, or one tick in which all stay."""
    rows = floors(rng, rng.choice(["open", "random", "parts", "dense"]))
    grid = Grid.of(rows)
    floor = [c for c in range(grid.size()) if grid.is_floor(c)]
    if not floor:
        rows, grid, floor = ["..."], Grid.of("..."), [0, 1, 2]
    part = grid.parts()
    n = rng.randint(1, min(6, len(floor)))
    cells = rng.sample(floor, n)
    clients = rng.randint(1, 3)
    accepted = [rng.randint(0, 9) for _ in range(clients)]
    free = [list(range(1, a + 1)) for a in accepted]
    tick = rng.randint(0, 9)
    robots = []
    for r in range(n):
        errands = []
        for _ in range(rng.choice([0, 0, 1, 2, 3])):
            c = rng.randrange(clients)
            last = max([e[1] for e in errands if e[0] == c], default=0)
            ok = [x for x in free[c] if x > last]
            if ok:
                x = rng.choice(ok)
                free[c].remove(x)
                errands.append([c, x, rng.choice([q for q in floor if part[q] == part[cells[r]]])])
        a = sorted(rng.choice([0, 1, 5, 2 ** 32 - 1]) for _ in range(2))
        f = sorted(rng.choice([0, 1, 5, 2 ** 32 - 1]) for _ in range(2))
        robots.append([cells[r], rng.random() < 0.2, rng.randint(0, tick) if errands else None, errands, a, f])
    queue = max([len(r[3]) for r in robots] + [1]) + rng.choice([0, 0, 3])
    cs = []
    for c in range(clients):
        closed = rng.random() < 0.3
        taken = accepted[c] + rng.choice([0, 0, 1, 4]) + (1 if closed else 0)
        mine = sum(1 for r in robots for e in r[3] if e[0] == c)
        top = taken + accepted[c] - mine
        cs.append([taken, accepted[c], rng.randint(taken, top) if rng.random() < 0.5 else top, closed])
    life = max(accepted + [1]) + rng.choice([0, 0, 5])
    o = dict(tick=tick, queue=queue, life=life, clients=cs, robots=robots)
    full = [r for r in robots if r[3]]
    long = [r for r in robots if len({(e[0]) for e in r[3]}) < len(r[3])]
    k = rng.randrange(22)
    c = rng.choice(cs)
    r = rng.choice(robots)
    if k == 1 and long:                                # numbers of one client do not rise
        r = rng.choice(long)
        for i in range(len(r[3])):
            for j in range(i + 1, len(r[3])):
                if r[3][i][0] == r[3][j][0]:
                    r[3][i][1], r[3][j][1] = r[3][j][1], r[3][i][1]
                    i = j = 99
                    break
            if i == 99:
                break
    elif k == 2 and full:                              # one errand twice, counts kept in step
        e = rng.choice(rng.choice(full)[3])
        r[3].append([e[0], e[1], r[0]])
        if r[2] is None:
            r[2] = 0
        if len(r[3]) > o["queue"]:
            o["queue"] = len(r[3])
        mine = sum(1 for q in robots for x in q[3] if x[0] == e[0])
        cs[e[0]][2] = max(cs[e[0]][0], cs[e[0]][0] + cs[e[0]][1] - mine)
    elif k == 3 and full:
        r = rng.choice(full)
        r[2] = rng.choice([tick, tick + 1])
    elif k == 4:
        r[2] = None if r[3] else rng.choice([0, tick])
    elif k == 5:
        o["queue"] = rng.choice([0, max(len(x[3]) for x in robots), max(1, max(len(x[3]) for x in robots) - 1), 65536, 65537])
    elif k == 6:
        o["life"] = rng.choice([max(accepted), max(accepted) - 1 if max(accepted) else 0, 2 ** 40, 2 ** 40 + 1, 0])
    elif k == 7:
        r[rng.choice([4, 5])] = rng.choice([[1, 0], [5, 5], [4294967295, 4294967294]])
    elif k == 8:
        r[0] = rng.choice([x[0] for x in robots] + [grid.size(), grid.size() - 1, 4294967295]
                          + [q for q in range(grid.size()) if not grid.is_floor(q)])
    elif k == 9 and full:
        r = rng.choice(full)
        rng.choice(r[3])[2] = rng.choice(list(range(grid.size())) + [grid.size(), 4294967295])
    elif k == 10 and full:
        e = rng.choice(rng.choice(full)[3])
        e[0] = rng.choice([clients, clients - 1, 4294967295])
    elif k == 11 and full:
        e = rng.choice(rng.choice(full)[3])
        e[1] = rng.choice([0, cs[e[0]][1], cs[e[0]][1] + 1, 2 ** 64 - 1])
    elif k in (12, 13):
        i = cs.index(c)
        mine = sum(1 for q in robots for x in q[3] if x[0] == i)
        top = c[0] + c[1] - mine
        c[2] = rng.choice([top, top + 1, c[0], c[0] - 1 if c[0] else 0, top - 1 if top else 0, c[0] + c[1], c[0] + c[1] - 1 if c[0] else 0])
    elif k == 14:
        c[3] = True
        c[0] = c[1] + rng.choice([0, 1])
        i = cs.index(c)
        c[2] = c[0] + c[1] - sum(1 for q in robots for x in q[3] if x[0] == i)
    elif k == 15:
        c[0] = c[1] - 1 if c[1] else 0
        c[2] = rng.choice([c[0], c[0] + c[1]])
    elif k == 16:
        big = 2 ** 57 + rng.choice([-1, 0, 1])
        c[0], c[1], c[2], c[3] = big, 0, big, rng.random() < 0.5
        i = cs.index(c)
        for q in robots:
            q[3] = [x for x in q[3] if x[0] != i]
            if not q[3]:
                q[2] = None
    elif k == 17:
        o["clients"] = cs * rng.choice([21, 22, 64, 65, 0])
    elif k == 18:
        o["robots"] = []
    elif k == 19:                       # up to 512 robots, and one more
        m = rng.choice([512, 513])
        rows = ["." * 32] * 17
        o["robots"] = [[i, False, None, [], [0, 0], [0, 0]] for i in range(m)]
        o["clients"] = [[0, 0, 0, False]]
        grid = Grid.of(rows)
    es = []
    if rng.random() < 0.4:
        place = [x[0] for x in o["robots"]]
        arrived = [[i, x[3][0][0], x[3][0][1], x[4][0]] for i, x in enumerate(o["robots"]) if x[3] and x[3][0][2] == x[0]]
        byes = [[i, x[5][1]] for i, x in enumerate(o["robots"]) if x[1] and x[3] and len(x[3]) == 1 and x[3][0][2] == x[0]]
        es.append(["tick", place, arrived, byes])
        if rng.random() < 0.3:
            es.append(["tick", place, [], []])
    v = dict(chapter=rng.choice([0, 0, 1, 7]), entries=es, opening=o, version=2 if rng.random() < 0.5 else 1)
    return rows, json.dumps(v, separators=(",", ":"), sort_keys=True).encode()


def edge_case(rng):
    x = rng.random()
    if rng.random() < 0.25:
        rows, text = opening_trace(rng)
        return dict(kind="judge", words=["judge", "map.txt", "trace.json"], stdin=b"",
                    files={"map.txt": map_text(rng, rows, clean=True), "trace.json": text})
    if x < 0.35:
        rows, lines = precedence_script(rng)
        script = ("\n".join(lines) + "\n").encode()
        m = map_text(rng, rows, clean=True)
        if rng.random() < 0.3:
            return dict(kind="trace", words=["run", "--trace", "map.txt", "script.txt"], stdin=b"",
                        files={"map.txt": m, "script.txt": script})
        return dict(kind="bundle", words=[], stdin=m + b"script\n" + script, files={})
    if x < 0.6:
        lines = ["robots 0", "lane 2", "post 0 go 0 2", "take 0", "tick", "give 0", "collect 0", "shut 0"[:9]]
        for _ in range(rng.choice([1, 1, 1, 2])):
            line = rng.choice(SHARP_LINES if rng.random() < 0.35 else EDGE_LINES)
            last = max([i for i, x in enumerate(lines) if x.split(" ")[0] in ("robots", "lane")] + [0])
            if line.split(" ")[0] in model.LIMIT_RANGES or line[:7] in ("clients", "turns 1", "ties pl"):
                lines.insert(rng.randrange(last + 2), line)
            else:
                lines.insert(rng.randrange(len(lines) + 1), line)
        if rng.random() < 0.2:
            lines = lines[1:]
        eol = "\r\n" if rng.random() < 0.2 else "\n"
        script = eol.join(lines) + rng.choice([eol, eol, ""])
        rows = rng.choice([["..."], ["...", "..@"], ["....", "...."]])
        m = map_text(rng, rows, clean=True)
        return dict(kind="bad-script", words=[], stdin=m + b"script\n" + script.encode("utf-8" if "٣" in script else "latin-1"),
                    files={})
    if x < 0.75:
        m = rng.choice(EDGE_MAPS)
        if rng.random() < 0.2:
            m = hostile_map(rng, m)
        if rng.random() < 0.6:
            return dict(kind="map", words=["map", "map.txt"], stdin=b"", files={"map.txt": m})
        if not m.endswith(b"\n") and rng.random() < 0.9:
            m += b"\n"
        return dict(kind="bad-map", words=[], stdin=m + rng.choice([b"script\n", b"script\nrobots 0\ntick\n", b"script\nrobots 0\ntick\n"]),
                    files={})
    rows, text = edge_trace(rng)
    return dict(kind="judge", words=["judge", "map.txt", "trace.json"], stdin=b"",
                files={"map.txt": map_text(rng, rows, clean=True), "trace.json": text})


# ---------------------------------------------------------------- cases
def bad_words(rng):
    return rng.choice([["run"], ["run", "m"], ["run", "m", "s", "x"], ["map"], ["map", "m", "m"], ["judge", "m"],
                       ["judge"], ["serve", "m"], ["fly"], ["--trace"], ["--trace", "run", "m", "s"],
                       ["run", "--trace", "--trace", "m", "s"], ["run", "--fast", "m", "s"], ["map", "--trace", "m"],
                       ["judge", "--trace", "m", "s"], ["serve", "--trace", "m", "s"], ["--help"], ["-h"],
                       ["help"], ["run", "--help"], ["--version"], ["run", "--trace=1", "m", "s"], ["Run", "m", "s"],
                       ["m", "s"], ["run", "-t", "m", "s"], ["help", "run"], ["--", "run", "m", "s"], ["-"]])


def is_ambiguous(case):
    """Why this case has no one answer, or None.  `compare` skips these by default."""
    script = case["files"].get("script.txt")
    if not case["words"]:
        parts = model.split_bundle(case["stdin"])
        script = parts[1] if parts else None
    if script is not None:
        for line in script.split(b"\n"):
            if line.endswith(b"\r"):
                line = line[:-1]
            if line.strip(b" \t") == b"" or line.startswith(b"#"):
                continue
            if line[-1:] in (b" ", b"\t") or (line[:1] in (b" ", b"\t") and line.strip(b" \t")[:1] != b"#"):
                return "blanks at an end of a script line"
    if case["words"][:1] == ["judge"] and "trace.json" in case["files"]:
        try:
            if model.read_trace(case["files"]["trace.json"])["opening"]["tick"] > model.COUNT_TOP:
                return "an opening's tick above 2^57"
        except model.TraceFault:
            pass
    return None


def roomy_case(rng):
    """A run on a map with bridges, whose errands go to cells that are roomy for its robots, and to no others."""
    goals = []
    while not goals:
        rows = floors(rng)
        m = laws.Map(rows)
        sg = ScriptGen(rng, Grid.of(rows))
        goals = sorted(m.roomy(len(sg.starts))) if m.bridges() else []
    sg.cell = lambda: rng.choice(goals)
    script = sg.text(sg.header() + sg.events())
    words = ["run", *["--trace"] * rng.randint(0, 1), "map.txt", "script.txt"]
    return dict(kind="roomy", words=words, stdin=b"", files={"map.txt": map_text(rng, decorate(rng, rows)), "script.txt": script})


def case(rng, ambiguous=False):
    kinds = ["bundle"] * 10 + ["bad-map"] * 4 + ["bad-script"] * 4 + ["bad-bundle"] * 2
    kinds += ["map"] * 3 + ["run"] * 4 + ["bad-words", "files", "big-map"]
    kinds += ["trace"] * 6 + ["judge"] * 14 + ["serve"] * 2
    kind = rng.choice(kinds)
    if rng.random() < 0.004:
        kind = "long"
    elif rng.random() < 0.3:
        return edge_case(rng)
    rows = floors(rng)
    if rng.random() < 0.3:
        rows = bridgeless_floor(rng)
    text_rows = decorate(rng, rows)
    files = {}
    stdin = b""
    words = []
    if kind in ("bundle", "bad-map", "bad-script", "bad-bundle", "run", "trace", "long"):
        grid = Grid.of(rows)
        sg = ScriptGen(rng, grid, ambiguous=ambiguous)
        lines = sg.header()
        if kind == "long":
            lines = [x for x in lines if not x.startswith("clock")]
            lines += [f"clock {rng.choice([3, 50, 1000000])}"]
            lines += sg.events(30) + [f"tick {rng.choice([3000, 1000000]) if lines[-1] == 'clock 3' else 3000}"]
            lines += sg.events(30)
        else:
            lines += sg.events()
        if kind == "bad-script" or (kind == "run" and rng.random() < 0.1):
            lines = hostile_script(rng, lines)
        script = sg.text(lines)
        m = map_text(rng, text_rows)
        if kind == "bad-map":
            m = hostile_map(rng, m)
        if kind in ("run", "trace"):
            words = ["run"] + (["--trace"] if kind == "trace" else []) + ["map.txt", "script.txt"]
            if kind == "trace" and rng.random() < 0.2:
                words = ["run", "map.txt", "script.txt"]
                words.insert(rng.choice([2, 3]), "--trace")
            files = {"map.txt": m, "script.txt": script}
            if rng.random() < 0.03:
                files["map.txt"] = hostile_map(rng, m)
            if rng.random() < 0.06:                    # two faults: which one is named
                files["map.txt"] = hostile_map(rng, m)
                files["script.txt"] = sg.text(hostile_script(rng, lines) + ["tick 0"])
                if rng.random() < 0.3:
                    words[-1] = "missing"
        else:
            if not m.endswith(b"\n"):
                m += b"\n"
            stdin = m + (b"script\r\n" if rng.random() < 0.05 else b"script\n") + script
            if kind == "bad-bundle":
                stdin = hostile_bytes(rng, stdin)
    elif kind in ("map", "big-map"):
        if kind == "big-map":
            text_rows = big_map(rng)
        m = map_text(rng, text_rows, clean=kind == "big-map")
        if kind == "map" and rng.random() < 0.3:
            m = hostile_map(rng, m)
        words, files = ["map", "map.txt"], {"map.txt": m}
    elif kind == "bad-words":
        words = bad_words(rng)
        files = {"map.txt": map_text(rng, text_rows)}
    elif kind == "files":
        m = map_text(rng, text_rows)
        if rng.random() < 0.4:
            m = hostile_map(rng, m)
        jobs = ["run"] + (["judge", "serve"])
        files = {"map.txt": m, "s.txt": b"robots 0\n"}
        words = [rng.choice(jobs), rng.choice(["map.txt", "missing"]), rng.choice(["s.txt", "missing", "."])]
        if rng.random() < 0.2:
            words = ["map", rng.choice(["missing", "."])]
        if rng.random() < 0.02:
            n = rng.choice([16777216, 16777217])
            files["s.txt"] = b"#" * n
            words = [rng.choice(jobs), "map.txt", "s.txt"]
    elif kind == "judge":
        rows, v = random_trace(rng)
        x = rng.random()
        if x < 0.35:
            for _ in range(rng.choice([1, 1, 1, 2])):
                v = targeted(rng, v)
        elif x < 0.65:
            v = mutate_value(rng, v)
        text = trace_text(rng, v)
        if x > 0.85:
            text = hostile_trace_text(rng, text)
        mrows = decorate(rng, rows)
        if rng.random() < 0.04:
            mrows = floors(rng)
        m = map_text(rng, mrows)
        if rng.random() < 0.02 or (x > 0.85 and rng.random() < 0.2):
            m = hostile_map(rng, m)
        words, files = ["judge", "map.txt", "trace.json"], {"map.txt": m, "trace.json": text}
    elif kind == "serve":
        grid = Grid.of(rows)
        sg = ScriptGen(rng, grid)
        lines = [x for x in sg.header() if not x.startswith("turns")]
        turns = rng.choice([1, 2, 5, 16])
        lines.append(f"turns {turns}")
        sg.posted = {c: 0 for c in range(sg.clients)}
        sg.p_close, sg.p_withdraw = rng.choice([0, 0.02]), rng.choice([0, 0.2])
        for _ in range(rng.choice([0, 1, 5, 20, 60])):
            c = rng.randrange(sg.clients)
            lines.append(f"post {c} {sg.order(c)}" if rng.random() < 0.7 else f"collect {c}")
        x = rng.random()
        if x < 0.25:
            lines.insert(rng.randrange(len(sg.starts), len(lines) + 1) if len(sg.starts) < len(lines) else len(lines),
                         rng.choice(["tick", "take 0", "give 0", "shut 0", f"post {sg.clients} go 0 0",
                                     f"collect {sg.clients}", "tick 5"]))
        elif x < 0.35:
            lines = hostile_script(rng, lines)
        words = ["serve", "map.txt", "script.txt"]
        files = {"map.txt": map_text(rng, text_rows), "script.txt": sg.text(lines)}
    return dict(kind=kind, words=words, stdin=stdin, files=files)

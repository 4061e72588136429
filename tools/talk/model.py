#!/usr/bin/env python3
"""A conversation with a fleet once more: an independent model of `fleet talk`, written from docs/PROTOCOL.md over the model of `errands`.

usage: tools/talk/model.py [--marks] [--roll] [--chapter-bytes N] [--roomy] [--planner plain|turns] [--resume CHAPTER] MAP [SCRIPT] < LINES
       tools/talk/model.py --cases FILE

Answers as `fleet talk` does: output, error text, status. With --resume the fleet goes on from the file of a chapter, DIR/chapter-N.json. With
--cases it reads the section `talk` of crates/golden_errands/stdin and prints what golden_errands has to print of it.
`talk(map, script, lines, marks, roll, kept, roomy, turns)` returns (output, error text, status); `roll` is the bytes that a chapter's text may have where
chapters are handed out unasked, or None; `kept` is the name of a chapter's file, its number and
its text; with `turns` the robots take turns, on maps where it is clear by which rooms (tools/turns/rooms.py). The error text begins with the warning that cells are not
roomy, if there is one. Standard library only.
"""
import functools
import os
import re
import sys

TOOLS = os.path.dirname(os.path.dirname(os.path.abspath(__file__)))
sys.path[:0] = [os.path.join(TOOLS, "reference"), os.path.join(TOOLS, "turns")]
import laws
import model
import rooms

MOST = 8192
DEFAULTS = {"life": 2 ** 40, "orders": 2 ** 62, "clock": 2 ** 48, "chapters": model.U32}
HEADERS = {"robots", "clients", "ties", "turns"} | set(model.LIMIT_DEFAULTS)


def blocked_cell(w):
    """The cell next to the eldest robot that is nearer to its goal, if it is beyond a bridge and a robot stands on each cell there; else None."""
    eldest = w.eldest()
    if eldest is None:
        return None
    floor = floor_of(w.grid)
    cell, goal = w.place[eldest], w.queues[eldest][0][2]
    for near in floor.near(cell):
        if floor.dist(near, goal) < floor.dist(cell, goal) and floor.bridge(cell, near) and floor.side(cell, near) <= set(w.place):
            return near
    return None


def told_so_far(w):
    """What a look tells of the ticks that were made."""
    eldest = w.eldest()
    state = "idle" if eldest is None else f"busy eldest {eldest}"
    return f"look tick {w.ticks} chapter {w.number} entries {len(w.entries)} {state}"


def look_line(w, unroomy=None):
    """The line of a look at a world on whose map these cells are not roomy for its robots; without them, of a map with bridges no limit is told. Of robots that
    take turns nothing is foreseen."""
    if w.mover is not None:
        return told_so_far(w) + " at " + " ".join(map(str, w.place))
    eldest, within = w.eldest(), None
    if w.is_bridgeless() if unroomy is None else not any(cell in unroomy for queue in w.queues for _, _, cell in queue):
        within = max(map(len, w.queues)) * len(w.place) * max(1, w.grid.floor_count() - 1)
    told = told_so_far(w)
    if within is not None:
        told += f" within {within}"
    if (blocked := blocked_cell(w)) is not None:
        told += f" blocked {blocked}"
    return told + " at " + " ".join(map(str, w.place))


def open_lines(w, client):
    """The lines of a client's open errands."""
    if client >= len(w.mail):
        return [f"no-client {client}"]
    lines = [
        f"open {client} number {number} robot {robot} cell {cell} place {place}"
        for robot, queue in enumerate(w.queues)
        for place, (owner, number, cell) in enumerate(queue, 1)
        if owner == client
    ]
    return lines + [f"open {client} end {len(lines)}"]


class Head:
    def __init__(self):
        self.seen, self.starts, self.clients, self.south = set(), None, 1, False
        self.limits = dict(model.LIMIT_DEFAULTS, **DEFAULTS)

    def add(self, words):
        """Whether the words are a header line that says nothing for the second time."""
        key = words[0].decode("latin-1")
        if key not in HEADERS or key in self.seen:
            return False
        if key == "robots":
            cells = [model._number(word, model.U32) for word in words[1:]]
            if not 1 <= len(cells) <= 512 or None in cells:
                return False
            self.starts = cells
        else:
            script = one_line([b"robots 0", b" ".join(words)])
            if script is None:
                return False
            if key == "clients":
                self.clients = script.clients
            elif key == "ties":
                self.south = script.south
            elif key != "turns":
                self.limits[key] = script.limits[key]
        self.seen.add(key)
        return True


def one_line(lines):
    """The script that the lines are, or none. The model takes one carriage return from each, as a conversation did before."""
    try:
        return model.read_script(b"".join(line + b"\r\n" for line in lines))
    except model.ScriptFault:
        return None


def words_of(told):
    return told.replace(b"\t", b" ").split()


def kind_of(raw):
    """What a line asks, its words or events, and its mark."""
    kept = raw[:MOST + 1]
    bare = kept[:-1] if kept.endswith(b"\r") else kept
    mark, told = None, bare
    if bare.startswith(b"@"):
        ends = [at for at in (bare.find(b" "), bare.find(b"\t")) if at >= 0]
        end = min(ends) if ends else len(bare)
        mark, told = bare[:end], bare[end + 1:]
    if len(raw) > MOST:
        return "bad", None, mark
    if told.startswith(b"#") or told.strip(b" \t") == b"":
        return "nothing", None, mark
    words = [word for word in told.replace(b"\t", b" ").split(b" ") if word]
    script = one_line([b"robots 0", told])
    if script is not None and script.events:
        return "events", script.events, mark
    if len(words) == 1 and words[0] in (b"look", b"chapter", b"quit"):
        return words[0].decode(), None, mark
    if len(words) == 2 and words[0] == b"open" and model._number(words[1], model.U32) is not None:
        return "open", model._number(words[1], model.U32), mark
    return "header", words, mark


# the replies to an event for whose entry the chapter has no room
NO_ROOM = (("take-refused", 2), ("tick-refused", 2), ("shut-refused", 3))


# ---- a fleet that goes on

# how the sentence of a text that tells no trace begins: the model does not say which part is not in its form
TRACE_FAULTS = {
    1: "it is not UTF-8, or not JSON, or nested deeper than 127",
    2: "the number under `version` is not 1 or 2",
    3: "",
}
# of the rules of which the model says all that `fleet explain` says; of the first rule how the sentence begins
RULES = {
    1: "it is not in order",
    2: "there is no such client",
    7: "a stamp is outside of its robot's law",
    8: "the robot cannot be shut",
}


def stamp_outside(chapter, entry):
    """The robot, stamp and law of the first stamp of an entry that is outside of its law."""
    robots = chapter["opening"]["robots"]
    if entry[0] == "tick":
        shown = [(one[0], one[3], 4) for one in entry[2]] + [(robot, stamp, 5) for robot, stamp in entry[3]]
    else:
        shown = [(entry[1], entry[2], 5)]
    for robot, stamp, law in shown:
        low, high = robots[robot][law]
        if not low <= stamp <= high:
            return robot, stamp, low, high


def explained(chapter, at, rule):
    """The sentence of `fleet explain` about the first entry that breaks a rule."""
    if at == 0:
        kind = "the opening"
    else:
        entry = chapter["entries"][at - 1]
        kind = {"take": "a take of client {1}", "tick": "a tick", "shut": "a shut of robot {1}"}[entry[0]].format(*entry)
    more = ""
    if rule == 2:
        more = f": the number of clients is {len(chapter['opening']['clients'])}"
    if rule == 7:
        more = ": robot {}'s stamp {} is not from {} to {}".format(*stamp_outside(chapter, entry))
    if rule == 8:
        count = len(chapter["opening"]["robots"])
        more = ": it is shut already" if entry[1] < count else f": the number of robots is {count}"
    return f"the trace: entry {at}, {kind}: {RULES[rule]}{more}"


def misfit(grid, head, limits, hooks, chapter):
    """Why no fleet goes on from a chapter, if none does. Waits are not looked at."""
    opening, entries, number = chapter["opening"], chapter["entries"], chapter["chapter"]
    if head.starts is not None and len(head.starts) != len(opening["robots"]):
        return "the header lines name another number of robots"
    if "clients" in head.seen and head.clients != len(opening["clients"]):
        return "the header lines name another number of clients"
    found = model.judge(grid, chapter)
    if found is not None:
        return explained(chapter, *found)
    laws = [(arrival[0], farewell[0]) for arrival, farewell in zip(hooks.arrivals, hooks.farewells)]
    if laws != [(robot[4], robot[5]) for robot in opening["robots"]]:
        return "its robots have other closures"
    if (limits["queue"], limits["life"]) != (opening["queue"], opening["life"]):
        return "the header lines name another `queue` or `life`"
    ticks = opening["tick"] + sum(1 for entry in entries if entry[0] == "tick")
    most = number * limits["chapter"]
    if (
        ticks > limits["clock"]
        or number + 1 >= limits["chapters"]
        or len(entries) > limits["chapter"]
        or any(client[0] > most for client in opening["clients"])
    ):
        return "no chapter follows within the limits"
    return None


def enter(w, entry):
    """What an entry of a chapter changes."""
    if entry[0] == "take":
        _, c, order, verdict = entry
        w.taken[c] += 1
        w.noticed[c] += 1
        if verdict[0] == "accepted":
            w.accepted[c] += 1
            if not w.queues[order[1]]:
                w.waits[order[1]] = 0
            w.queues[order[1]].append((c, verdict[1], order[2]))
        elif verdict[0] == "closed":
            w.closed[c] = True
        elif verdict[0] == "withdrawn":
            w.queues = [[e for e in queue if e[:2] != (c, order[1])] for queue in w.queues]
    elif entry[0] == "tick":
        w.place, w.ticks = list(entry[1]), w.ticks + 1
        arrived = {robot for robot, _, _, _ in entry[2]}
        for robot, queue in enumerate(w.queues):
            if robot in arrived:
                w.noticed[queue.pop(0)[0]] += 1
                w.waits[robot] = 0 if queue else None
            elif queue:
                w.waits[robot] += 1
        for robot, _ in entry[3]:
            w.said_farewell[robot] = True
    else:
        w.is_shut[entry[1]] = True
        w.said_farewell[entry[1]] = w.said_farewell[entry[1]] or entry[2] is not None


def reopened(grid, head, name, number, text):
    """The world that goes on from a chapter, and its limits."""
    def refuse(why):
        return model.Stop(6, f"fleet: file {name}: {why}")

    try:
        chapter = model.read_trace(text)
    except model.TraceFault as fault:
        raise refuse("the trace: " + TRACE_FAULTS[fault.args[0]]) from None
    if chapter["chapter"] != number:
        raise refuse(f"it is chapter {chapter['chapter']}")
    opening = chapter["opening"]
    robots, clients = opening["robots"], opening["clients"]
    limits = dict(head.limits, **{key: opening[key] for key in ("queue", "life") if key not in head.seen})
    south = head.south if "ties" in head.seen else any(robot[5][1] > 0 for robot in robots)
    hooks = (model.south_hooks if south else model.plain_hooks)(len(robots))
    why = misfit(grid, head, limits, hooks, chapter)
    if why is not None:
        raise refuse(why)
    w = model.World(grid, [robot[0] for robot in robots], len(clients), limits, hooks)
    w.is_shut = [robot[1] for robot in robots]
    w.waits = [robot[2] for robot in robots]
    w.queues = [list(robot[3]) for robot in robots]
    w.said_farewell = [robot[1] and not robot[3] for robot in robots]
    w.taken, w.accepted, w.noticed, w.closed = (list(column) for column in zip(*clients))
    w.ticks = opening["tick"]
    for entry in chapter["entries"]:
        enter(w, entry)
    w.number = number + 1
    w.opening = w._opening()
    w.mail_limit = [max(limits["mailbox"], w.unfinished_of(c)) for c in range(len(clients))]
    return w, limits


def new_rings(w):
    """The empty rings of a world that goes on."""
    rings, clients = model.Played(), len(w.taken)
    rings.lanes, rings.outlets, rings.collected, rings.given = ([[] for _ in range(clients)] for _ in range(4))
    # an order's number is counted over all chapters
    rings.sent = [[None] * taken for taken in w.taken]
    return rings


def unroomy_cells(grid, robots):
    """The floor cells that are not roomy for so many robots, by definition."""
    floor = floor_of(grid)
    return floor.floor - floor.roomy(robots)


@functools.lru_cache(maxsize=4)
def floor_of(grid):
    """The grid as the laws see it, with what they know of it."""
    letters = grid.cells.decode("latin-1")
    return laws.Map([letters[at:at + grid.width] for at in range(0, len(letters), grid.width)])


def open_count(world):
    """How many errands are in the robots' queues."""
    return sum(map(len, world.queues))


class Talk:
    def __init__(self, grid, head, marks, roll, roomy, turns=False):
        self.grid, self.head, self.marks, self.roll, self.roomy, self.turns = grid, head, marks, roll, roomy, turns
        self.world, self.out, self.limited = None, [], False
        # the cells that are not roomy, those to which posts are refused, and what is said of the former
        self.unroomy, self.refused, self.warning = set(), set(), ""

    def resume(self, name, number, text):
        """The fleet goes on from a chapter, and is open."""
        self.world, self.head.limits = reopened(self.grid, self.head, name, number, text)
        self.head.clients = len(self.world.taken)
        self.rings = new_rings(self.world)
        self.opened_with = open_count(self.world)
        self.find_door()
        self.choose()
        for client in range(self.head.clients):
            for robot, queue in enumerate(self.world.queues):
                for owner, _, cell in queue:
                    if owner == client and cell in self.refused:
                        why = f"an errand of client {client} for robot {robot} goes to cell {cell}, which is not roomy"
                        raise model.Stop(6, f"fleet: file {name}: {why}")

    def find_door(self):
        """Finds the cells that are not roomy for the robots of the open fleet."""
        robots = len(self.world.place)
        self.unroomy = unroomy_cells(self.grid, robots)
        if self.roomy:
            self.refused = self.unroomy
        elif self.unroomy and not self.turns:
            told = f"{len(self.unroomy)} of {self.grid.floor_count()} cells are not roomy for {robots} robots"
            self.warning = f"fleet: {told}: errands there may block the fleet for ever (see --planner turns)\n"

    def choose(self):
        """Has the ticks of the open fleet planned in the manner that is asked for."""
        if self.turns and not self.world.is_bridgeless():
            self.world.mover = rooms.mover(self.grid, len(self.world.place))
            if self.world.mover is None:
                raise SystemExit("tools/talk/model.py: several blocks of this map are best")

    def say(self, mark, lines):
        for line in lines:
            self.out.append((mark + b" " if mark is not None else b"") + line.encode("latin-1") + b"\n")

    def open(self):
        hooks = (model.south_hooks if self.head.south else model.plain_hooks)(len(self.head.starts))
        self.world = model.World(self.grid, self.head.starts, self.head.clients, self.head.limits, hooks)
        self.rings = model.run(self.grid, self.head.starts, self.head.clients, self.head.limits, hooks, [])
        self.opened_with = 0
        self.find_door()
        self.choose()

    def turn(self):
        told = f"chapter {self.world.number} entries {len(self.world.entries)}"
        self.world.next_chapter()
        self.opened_with = open_count(self.world)
        return told

    def is_long(self, event):
        """Whether the chapter's text may have as many bytes as it may have, before an event that makes an entry. A chapter has at most 128 bytes, 136 for a
        robot, 80 for a client, 152 for an errand in a queue (48 there, and 104 where it is done with its robot's farewell); 128 and 8 for a robot for a tick,
        and 200 for another entry (96, and 104 if it is an errand that is done)."""
        if self.roll is None:
            return False
        w = self.world
        robots, ticks = len(w.place), sum(entry[0] == "tick" for entry in w.entries)
        opening = 128 + 136 * robots + 80 * len(w.taken) + 152 * self.opened_with
        length = opening + ticks * (128 + 8 * robots) + (len(w.entries) - ticks) * 200
        return event[0] in ("take", "tick", "shut") and w.entries and length >= self.roll

    def reply(self, event):
        """The reply to an event, and the entry that it made, if it made one."""
        w, before = self.world, len(self.world.entries)
        reply = model._event(self.rings, w, event, self.head.limits, self.head.clients)
        return reply, w.entries[before] if len(w.entries) > before else None

    def event(self, mark, event):
        if event[0] == "post" and event[2][0] == "go" and event[2][2] in self.refused:
            client = event[1]
            self.say(mark, [f"post-refused {client} 3 no-room" if client < self.head.clients else f"no-client {client}"])
            return
        rolled = False
        if self.is_long(event):
            try:
                self.say(mark, [self.turn()])
                rolled = True
            except model.BookSpent:
                pass
        reply, entry = self.reply(event)
        if not rolled and self.roll is not None and reply in NO_ROOM:
            try:
                self.say(mark, [self.turn()])
            except model.BookSpent:
                pass
            else:
                reply, entry = self.reply(event)
        self.limited |= model.limit_met([reply])
        self.say(mark, model.event_lines(event, reply, entry))

    def line(self, number, raw):
        """Whether the conversation goes on."""
        kind, what, mark = kind_of(raw)
        if kind == "quit":
            return False
        if self.world is None and kind in ("events", "look", "open", "chapter"):
            if self.head.starts is None:
                kind = "bad"
            else:
                self.open()
        if kind == "header" and (self.world is not None or not self.head.add(what)):
            kind = "bad"
        if kind == "bad":
            self.say(mark, [f"bad-line {number}"])
        elif kind == "events":
            for event in what:
                self.event(mark, event)
        elif kind == "look":
            self.say(mark, [look_line(self.world, self.unroomy)])
        elif kind == "open":
            self.say(mark, open_lines(self.world, what))
        elif kind == "chapter":
            try:
                self.say(mark, [self.turn()])
            except model.BookSpent:
                self.say(mark, ["chapter-refused 1 book-spent"])
        if self.marks:
            self.say(mark, [f". {number}"])
        return True


def head_of(script):
    head = Head()
    for number, raw in enumerate(model.split_lines(script, cr=False), 1):
        kind, words, mark = kind_of(raw)
        if kind == "nothing" and mark is None:
            continue
        if kind != "header" or mark is not None or not head.add(words):
            raise model.Stop(5, f"fleet: script {number}")
    return head


def talk(text, script, lines, marks=False, roll=None, kept=None, roomy=False, turns=False):
    """(output, error text, status)"""
    output, warning, complaint, status = told_in(text, script, lines, marks, roll, kept, roomy, turns)
    return output, warning + complaint, status


def told_in(text, script, lines, marks, roll, kept, roomy, turns=False):
    """(output, the warning that cells are not roomy, what else the error text says, status)"""
    try:
        rows = model.read_map(text)
    except model.MapFault as fault:
        return b"", "", fault.text().replace("errands", "fleet") + "\n", 4
    try:
        head = head_of(script)
    except model.Stop as stop:
        return b"", "", stop.args[1] + "\n", stop.args[0]
    held = Talk(model.Grid(*rows), head, marks, roll, roomy, turns)
    if kept is not None:
        try:
            held.resume(*kept)
        except model.Stop as stop:
            return b"", "", stop.args[1] + "\n", stop.args[0]
    try:
        for number, raw in enumerate(model.split_lines(lines, cr=False), 1):
            if not held.line(number, raw):
                break
    except model.OpenFault as fault:
        code = fault.args[0]
        return b"".join(held.out), "", f"fleet: opening {code} {model.OPENING[code]}\n", 5
    if held.limited:
        return b"".join(held.out), held.warning, "fleet: limit\n", 8
    return b"".join(held.out), held.warning, "", 0


def cases(text, section):
    """The cases of a section of crates/golden_errands/stdin: names, options, conversations."""
    found = re.search(b"^== " + section + rb"\n(.*?)(?=^== |\Z)", text, re.S | re.M)
    for block in found[1].split(b"case: ")[1:]:
        name, rest = block.split(b"\n", 1)
        options = []
        while rest.startswith(b"+ "):
            option, rest = rest[2:].split(b"\n", 1)
            options.append(option)
        yield name, options, rest


def tell(name, options, lines):
    script, text, kept = b"", model_map(b"ring"), None
    for option in options:
        word, _, more = option.partition(b" ")
        if word == b"script":
            script += more + b"\n"
        if word == b"map":
            text = model_map(more)
        if word == b"kept":
            number, _, chapter = more.partition(b" ")
            kept = "kept.json", int(number), chapter
    if b"cut" in options:
        lines = lines[:-1]
    # the stored run's sink says no warning
    out, _, error, status = told_in(text, script, lines, b"marks" in options, most_bytes(options), kept, b"roomy" in options)
    told = b"case: " + name + b"\n" + out + f"status {status}\n{error}".encode()
    if b"trials" in options:
        told += b"".join(trial + b": as it should\n" for trial in TRIALS)
    return told


def most_bytes(options):
    """The bytes that a chapter's text may have, where options say that chapters are handed out unasked."""
    for option in options:
        if option.startswith(b"bytes "):
            return int(option.split()[1])
    return 64 << 20 if b"roll" in options else None


TRIALS = (
    b"read byte by byte",
    b"each read fails",
    b"each write fails",
    b"each write fails once",
    b"each write takes no byte",
    b"each chapter is not kept",
)


MAPS = {
    b"ring": b"type octile\nheight 3\nwidth 3\nmap\n...\n.@.\n...\n",
    b"line": b"type octile\nheight 1\nwidth 3\nmap\n...\n",
    b"bad": b"type octile\nheight 1\nwidth 3\nmap\n..\n",
}


def model_map(name):
    return MAPS[name]


def kept_in(words):
    """The chapter that words name after --resume, if they do, and the other words."""
    if "--resume" not in words:
        return None, words
    at = words.index("--resume")
    name = words[at + 1]
    number = int(re.fullmatch(r"(?:.*/)?chapter-(\d+)\.json", name)[1])
    with open(name, "rb") as file:
        return (name, number, file.read()), words[:at] + words[at + 2:]


def main(words):
    if {"--help", "-h"} & set(words):
        print(__doc__.strip())
        return 0
    if words[:1] == ["--cases"]:
        with open(words[1], "rb") as file:
            for case in cases(file.read(), b"talk"):
                sys.stdout.buffer.write(tell(*case))
        return 0
    kept, words = kept_in(words)
    roll = 64 << 20 if "--roll" in words else None
    if "--chapter-bytes" in words:
        at = words.index("--chapter-bytes")
        roll, words = int(words[at + 1]), words[:at] + words[at + 2:]
    planner = "plain"
    if "--planner" in words:
        at = words.index("--planner")
        planner, words = words[at + 1], words[:at] + words[at + 2:]
    names = [word for word in words if not word.startswith("--")]
    texts = [open(name, "rb").read() for name in names] + [b""]
    out, error, status = talk(texts[0], texts[1], sys.stdin.buffer.read(), "--marks" in words, roll, kept, "--roomy" in words, planner == "turns")
    sys.stdout.buffer.write(out)
    sys.stderr.write(error)
    return status


if __name__ == "__main__":
    sys.exit(main(sys.argv[1:]))

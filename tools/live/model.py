#!/usr/bin/env python3
"""A fleet on demand or in real time once more: an independent model of `fleet live`, written from docs/PROTOCOL.md over the model of `errands`.

usage: tools/live/model.py [--watch] [--recall=N] [--resume CHAPTER] MAP SCRIPT < LINES
       tools/live/model.py --cases FILE

Says what the first conversation says, where no client has pipes of its own: output, error text, status. SCRIPT has the header lines. With --resume the
fleet goes on from the file of a chapter, DIR/chapter-N.json.
With --cases it reads the section `live` of crates/golden_errands/stdin and prints what golden_errands has to print of it: a sink in
place of a folder counts the chapters that it keeps, and fails first where an option says so. In a case with a period a line
`~ COUNT MICROS` is no line of the conversation: COUNT lines were printed since the last such line, and the clock is moved on by MICROS
microseconds, or stands still if there is no MICROS. Standard library only.
"""
import importlib.util
import os
import sys

TALK = os.path.join(os.path.dirname(os.path.abspath(__file__)), "..", "talk", "model.py")
spec = importlib.util.spec_from_file_location("talk_model", TALK)
talk = importlib.util.module_from_spec(spec)
if os.path.dirname(os.path.abspath(__file__)) in sys.path:
    sys.path.remove(os.path.dirname(os.path.abspath(__file__)))
spec.loader.exec_module(talk)
model = talk.model


MOST_WAITING = 16


class Unkept(Exception):
    """Sixteen chapters wait."""


class Sink:
    """Keeps chapters in order, once it has failed so often; those that it did not keep wait."""

    def __init__(self, fails):
        self.fails, self.waiting, self.kept = fails, [], []

    def keep(self):
        while self.waiting:
            if self.fails > 0:
                self.fails -= 1
                return False
            self.kept.append(self.waiting.pop(0))
        return True


class Live:
    def __init__(self, grid, head, watch, fails=0, period=None, piped=False):
        self.grid, self.head, self.watch = grid, head, watch
        # The first conversation speaks for the clients from this one on.
        self.first = 1 if piped else 0
        self.period = period
        self.now, self.due, self.line_due, self.retry = 0, period, 60_000_000, None
        self.ticks = self.orders = self.late = self.latest = 0
        self.sink, self.pages = Sink(fails), []
        hooks = (model.south_hooks if head.south else model.plain_hooks)(len(head.starts))
        self.rings = model.run(grid, head.starts, head.clients, head.limits, hooks, [])
        self.world, self.out, self.limited, self.closed = self.rings.world, [], False, set()
        # By client the number of its last order, how many notices it was told, and those that are told again.
        self.recall, self.posts, self.seqs = 0, [0] * head.clients, [0] * head.clients
        self.told = [[] for _ in range(head.clients)]

    def resume(self, name, number, text):
        """The fleet goes on from a chapter. Its lanes are new, also those of clients that are closed."""
        self.world, self.head.limits = talk.reopened(self.grid, self.head, name, number, text)
        self.head.clients = len(self.world.taken)
        self.rings = talk.new_rings(self.world)
        self.posts, self.seqs = list(self.world.taken), list(self.world.noticed)
        self.told = [[] for _ in self.posts]

    def unroomy(self):
        """The cells that are not roomy for the robots."""
        return talk.unroomy_cells(self.grid, len(self.world.place))

    def say(self, mark, line):
        self.out.append((mark + b" " if mark is not None else b"") + line.encode("latin-1") + b"\n")

    def event(self, *event):
        reply = model._event(self.rings, self.world, event, self.head.limits, self.head.clients)
        self.orders += reply[0] == "took"
        return reply

    def turn_page(self):
        """The next chapter; the one before is handed out."""
        self.pages.append(len(self.world.entries))
        try:
            self.world.next_chapter()
        except model.BookSpent:
            self.pages.pop()
            raise

    def keep(self):
        """Keeps what was handed out, after what waits."""
        self.sink.waiting += self.pages
        self.pages = []
        if not self.sink.keep() and len(self.sink.waiting) >= MOST_WAITING:
            raise Unkept()

    def give_all(self):
        """How many notices were given."""
        given = 0
        for client in range(self.head.clients):
            while self.event("give", client)[0] == "gave":
                given += 1
        return given

    def take_all(self):
        """At most `lane` orders of each client, by number. False where the chapter is full."""
        for client in range(self.head.clients):
            for _ in range(self.head.limits["lane"]):
                reply = self.event("take", client)
                if reply == ("take-refused", 2):
                    return False
                if reply[0] != "took":
                    break
        return True

    def tell_found(self, client):
        """Tells a client what is on its outlet. Whether that was something."""
        found = False
        while True:
            reply = self.event("collect", client)
            if reply[0] != "collected":
                return found
            found = True
            for line in model.event_lines(("collect", client), reply, None):
                self.say(None, line)
                self.seqs[client] = int(line.split()[2])
                self.told[client].append(line)
            self.told[client] = self.told[client][-self.recall:] if self.recall else []

    def tell_all(self):
        """Tells each client what is on its outlet, until its mailbox is empty too."""
        while True:
            for client in range(self.head.clients):
                self.tell_found(client)
            if not self.give_all():
                return

    def in_chapters(self, act):
        """Does this, in the next chapter where this one is full. False where that is the last."""
        while not act():
            try:
                self.turn_page()
            except model.BookSpent:
                return False
        return True

    def settled(self):
        self.give_all()
        if not self.take_all():
            return False
        self.give_all()
        return True

    def settle(self):
        self.in_chapters(self.settled)
        self.tell_all()

    def turned(self):
        """One turn; False where the chapter is full."""
        self.give_all()
        if not self.take_all():
            return False
        reply = self.event("tick")
        if reply == ("tick-refused", 2):
            return False
        self.made = reply[0] == "ticked"
        self.give_all()
        return True

    def tick_line(self):
        return f"tick {self.world.ticks}: " + " ".join(map(str, self.world.place))

    def tick(self, mark, times):
        for left in range(times - 1, -1, -1):
            room = self.in_chapters(self.turned)
            self.tell_all()
            self.keep()
            if not room or not self.made:
                self.limited = True
                return self.say(mark, "tick-refused 1 clock-spent" if room else "tick-refused 2 chapter-full")
            if left and self.watch:
                self.say(None, self.tick_line())
        self.say(mark, self.tick_line())

    def counts(self):
        """The line of a minute."""
        waits = [wait for wait in self.world.waits if wait is not None]
        most = len(self.head.starts) * max(1, self.grid.floor_count() - 1)
        limit = f" below {most}" if self.grid.first_bridge() is None else ""
        seconds = 60 + (self.now - self.line_due) // 1_000_000
        self.say(None, f"seconds {seconds} ticks {self.ticks} orders {self.orders} late {self.late} latest {self.latest}us wait {max(waits, default=0)}{limit}")
        self.ticks = self.orders = self.late = self.latest = 0
        self.line_due = self.now + 60_000_000

    def try_to_keep(self):
        """Keeps what waits, and says so where that fails, and where it works again."""
        waited, first = bool(self.sink.waiting), len(self.sink.kept)
        try:
            self.keep()
        finally:
            if self.sink.waiting:
                self.say(None, f"fleet: file chapter-{len(self.sink.kept)}.json cannot be written")
                self.retry = self.now + 1_000_000
            elif waited:
                self.say(None, f"fleet: file chapter-{first}.json is written, and those after it")

    def pass_time(self, micros):
        """Moves the clock on, and makes the turn that is due. False where the fleet ends."""
        self.now += micros
        if self.now < self.due:
            return True
        late = self.now - self.due
        self.late += late >= self.period
        self.latest = max(self.latest, late)
        room = self.in_chapters(self.turned)
        self.tell_all()
        if not room or not self.made:
            self.limited = True
            return False
        self.ticks += 1
        if self.watch:
            self.say(None, self.tick_line())
        self.due += self.period * (late // self.period + 1)
        if self.now >= self.line_due:
            self.counts()
        if self.pages or (self.sink.waiting and self.now >= self.retry):
            self.try_to_keep()
        return True

    def pipe_line(self, number, raw):
        """A line of client 0, which has pipes of its own."""
        kind, what, mark = talk.kind_of(raw)
        if kind == "nothing":
            return
        if kind == "look":
            self.say(mark, talk.look_line(self.world, self.unroomy()))
        elif kind == "events" and what[0][0] == "post" and what[0][1] == 0:
            self.post(mark, 0, what[0][2])
        else:
            self.say(mark, f"bad-line {number}")

    def post(self, mark, client, order):
        if client < self.head.clients and client in self.closed:
            return self.say(mark, f"post-refused {client} 1 closed")
        event = ("post", client, order)
        reply = self.event(*event)
        for line in model.event_lines(event, reply, None):
            self.say(mark, line)
        if reply[0] == "posted":
            self.posts[client] += 1
            if order[0] == "close":
                self.closed.add(client)
            self.settle()

    def again(self, mark, words):
        """`session C` and `since C SEQ`; whether it is one of them."""
        numbers = [model._number(word, 2 ** 64 - 1) for word in words[1:]]
        if len(words) != {b"session": 2, b"since": 3}[words[0]] or None in numbers or numbers[0] > model.U32:
            return False
        client, told = numbers[0], None
        if not self.first <= client < self.head.clients:
            self.say(mark, f"no-client {client}")
        elif words[0] == b"session":
            told = self.told[client]
            first = int(told[0].split()[2]) if told else self.seqs[client] + 1
            closed = "true" if client in self.closed or self.world.closed[client] else "false"
            self.say(mark, f"session {client} orders {self.posts[client]} notices {self.seqs[client]} told from {first} closed {closed}")
        else:
            told = [line for line in self.told[client] if int(line.split()[2]) > numbers[1]]
            length = count = 0
            for line in told:
                # One answer has no more.
                if length < 14_336:
                    length += len(line) + 1 + (0 if mark is None else len(mark) + 1)
                    count += 1
                    self.say(mark, line)
            self.say(mark, f"since {client} end {count}")
        return True

    def robots(self):
        """The lines of `robots`."""
        world, lines = self.world, []
        for robot, (cell, queue, wait) in enumerate(zip(world.place, world.queues, world.waits)):
            state = "shut" if world.is_shut[robot] else "busy" if queue else "free"
            lines.append(f"robot {robot} cell {cell} goal {queue[0][2] if queue else cell} errands {len(queue)} wait {wait or 0} {state}")
        return lines + [f"robots end {len(lines)}"]

    def hello(self):
        """The line of `hello`."""
        world, limits = self.world, self.head.limits
        return (f"hello version 0.1.0 robots {len(world.place)} clients {self.head.clients} width {self.grid.width} height {self.grid.height} "
                f"chapter {world.number} tick {world.ticks} queue {limits['queue']} mailbox {limits['mailbox']} lane {limits['lane']}")

    def post_as(self, mark, words):
        """`as N post C ..`; whether it is that."""
        number = int(words[1]) if len(words) > 2 and words[1].isdigit() else None
        kind, what, _ = talk.kind_of(b" ".join(words[2:]))
        if number is None or kind != "events" or what[0][0] != "post":
            return False
        _, client, order = what[0]
        if not self.first <= client < self.head.clients:
            self.say(mark, f"no-client {client}")
        elif number != self.posts[client] + 1:
            self.say(mark, f"post-refused {client} 4 next {self.posts[client] + 1}")
        else:
            self.post(mark, client, order)
        return True

    def shut(self, mark, robot):
        replies = []

        def act():
            entries = len(self.world.entries)
            reply = self.event("shut", robot)
            replies.append((reply, self.world.entries[entries] if len(self.world.entries) > entries else None))
            return reply != ("shut-refused", 3)

        if not self.in_chapters(act):
            self.limited = True
        reply, entry = replies[-1]
        lines = model.event_lines(("shut", robot), reply, entry)
        line = lines[0]
        if len(lines) > 1:
            words = lines[1].split()
            line += f" farewell {words[words.index('stamp') + 1]}"
        self.say(mark, line)

    def line(self, number, raw):
        """Whether the conversation goes on."""
        kind, what, mark = talk.kind_of(raw)
        if kind == "quit":
            return False
        if kind == "nothing":
            return True
        if kind == "look":
            self.say(mark, talk.look_line(self.world, self.unroomy()))
        elif kind == "open":
            if what < self.head.clients:
                self.settle()
            for line in talk.open_lines(self.world, what):
                self.say(mark, line)
        elif kind == "chapter":
            told = f"chapter {self.world.number} entries {len(self.world.entries)}"
            try:
                self.turn_page()
                self.keep()
                self.say(mark, told)
            except model.BookSpent:
                self.say(mark, "chapter-refused 1 book-spent")
        elif kind == "header" and what in ([b"watch", b"on"], [b"watch", b"off"]):
            self.watch = what[1] == b"on"
            self.say(mark, "watch " + what[1].decode())
        elif kind == "header" and what[0] in (b"session", b"since") and self.again(mark, what):
            pass
        elif kind == "header" and what == [b"hello"]:
            self.say(mark, self.hello())
        elif kind == "header" and what == [b"robots"]:
            for line in self.robots():
                self.say(mark, line)
        elif kind == "header" and what[0] == b"as" and self.post_as(mark, what):
            pass
        elif kind == "events" and what[0][0] == "tick" and self.period is None:
            self.tick(mark, len(what))
        elif kind == "events" and what[0][0] == "post" and what[0][1] < self.first:
            self.say(mark, f"no-client {what[0][1]}")
        elif kind == "events" and what[0][0] == "post":
            self.post(mark, what[0][1], what[0][2])
        elif kind == "events" and what[0][0] == "shut":
            self.shut(mark, what[0][1])
        else:
            self.say(mark, f"bad-line {number}")
        return True

    def take_left(self):
        """Takes every order that is left, in further chapters where this one is full. False where that is the last, or none can be kept."""
        client = 0
        while client < self.head.clients:
            reply = self.event("take", client)
            if reply[0] == "take-refused" and reply[1] == 2:
                try:
                    self.turn_page()
                    self.keep()
                except model.BookSpent:
                    self.limited = True
                    return False
            elif reply[0] == "take-refused":
                self.world.widen(client, 2)
            elif reply[0] != "took":
                client += 1
        return True

    def end(self):
        """The end, whatever its cause: whether all chapters were kept."""
        try:
            judged = self.take_left()
        except Unkept:
            judged = False
        if judged:
            for client in range(self.head.clients):
                while self.give_all() + self.tell_found(client):
                    pass
        else:
            self.tell_all()
        self.sink.waiting += self.pages
        kept = self.sink.keep()
        if kept:
            self.sink.waiting.append(len(self.world.entries))
            kept = self.sink.keep()
        for _ in range(1 + self.first):
            self.say(None, f"ended {self.world.ticks}")
        return kept


def hold(held, lines):
    """Whether chapters could be kept as long as lines were read."""
    number = printed = 0
    try:
        for raw in model.split_lines(lines, cr=False):
            if held.period is not None and raw.startswith(b"~ "):
                count, *micros = map(int, raw.split()[1:])
                if len(held.out) != printed + count:
                    raise ValueError(f"{len(held.out) - printed} lines were printed, and the case says {raw!r}")
                printed += count
                if micros and not held.pass_time(*micros):
                    break
                continue
            number += 1
            if not held.line(number, raw):
                break
            if held.pages:
                held.keep()
    except Unkept:
        return False
    return True


def live(text, script, lines, watch=False, fails=0, kept=None, period=None, pipe=b"", recall=0):
    """(output, error text, status, entries of the chapters that were kept); `kept` is as for a conversation"""
    held = Live(model.Grid(*model.read_map(text)), talk.head_of(script), watch, fails, period, bool(pipe))
    held.recall = recall
    if kept is not None:
        try:
            held.resume(*kept)
        except model.Stop as stop:
            return b"", stop.args[1] + "\n", stop.args[0], []
    for number, raw in enumerate(model.split_lines(pipe, cr=False), 1):
        held.pipe_line(number, raw)
    good = hold(held, lines)
    good = held.end() and good
    output = b"".join(held.out)
    if not good:
        return output, "fleet: file\n", 3, held.sink.kept
    if held.limited:
        return output, "fleet: limit\n", 8, held.sink.kept
    return output, "", 0, held.sink.kept


UNITS = {"us": 1, "ms": 1_000, "s": 1_000_000}


def micros_of(time):
    """The microseconds of a word such as `20ms`."""
    digits = time.rstrip("ums")
    return int(digits) * UNITS[time[len(digits):]]


def tell(name, options, lines):
    """What the program has to print of a case."""
    script, chapter, pipe, period = b"robots 0 8\nclients 2\n", None, b"", None
    for option in options:
        word, _, more = option.partition(b" ")
        if word == b"script":
            script += more + b"\n"
        elif word == b"kept":
            number, _, told = more.partition(b" ")
            chapter = "kept.json", int(number), told
        elif word == b"pipe":
            pipe += more + b"\n"
        elif word == b"period":
            period = micros_of(more.decode())
    fails = float("inf") if b"fails always" in options else options.count(b"fails")
    output, error, status, kept = live(talk.model_map(b"ring"), script, lines, b"watch" in options, fails, chapter, period, pipe)
    told = f"{error}status {status}\nkept chapters {len(kept)} entries {sum(kept)}\n"
    return b"case: " + name + b"\n" + output + told.encode()


def main(words):
    if words[:1] == ["--cases"]:
        with open(words[1], "rb") as file:
            for case in talk.cases(file.read(), b"live"):
                sys.stdout.buffer.write(tell(*case))
        return 0
    kept, words = talk.kept_in(words)
    if {"--help", "-h"} & set(words) or len([word for word in words if not word.startswith("--")]) != 2:
        print(__doc__.strip())
        return 0 if {"--help", "-h"} & set(words) else 2
    texts = [open(name, "rb").read() for name in words if not name.startswith("--")]
    recall = max([int(word[len("--recall="):]) for word in words if word.startswith("--recall=")], default=0)
    out, error, status, _ = live(texts[0], texts[1], sys.stdin.buffer.read(), "--watch" in words, kept=kept, recall=recall)
    sys.stdout.buffer.write(out)
    sys.stderr.write(error)
    return status


if __name__ == "__main__":
    sys.exit(main(sys.argv[1:]))

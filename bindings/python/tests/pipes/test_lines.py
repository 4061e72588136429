"""Tests of the lines `hello`, `robots` and `as N post ..` of `fleet live`, against a built program: FLEET names it. All that is expected is written
down here by hand.
"""

import asyncio
import random

from kept_chapters import OPEN, PROGRAM, RING, KeptChaptersTest, model
from nashirudder import LiveFleet
from nashirudder.events import Judged, NotPosted, Posted
from nashirudder.records import Hello, Standing
from nashirudder.stream import FleetStream

# On the ring 0 1 2 / 3 # 5 / 6 7 8: where robot 0 goes from 0 to 2, and robot 1 stands on 8.
FREE = ["robot 0 cell 0 goal 0 errands 0 wait 0 free", "robot 1 cell 8 goal 8 errands 0 wait 0 free", "robots end 2"]
# A dead end of three cells, of which the last, 11, is not roomy for two robots.
STUB = "type octile\nheight 3\nwidth 6\nmap\n...@@@\n......\n...@@@\n"
LIMITS = "queue 16 mailbox 64 lane 64"


class LinesTest(KeptChaptersTest):
    def said(self, lines, *words):
        """The lines that the fleet says to these, without its last one."""
        output, complaint, status = self.run_program(["live", *words, "--robots", "0,8", self.map], lines)
        self.assertEqual((complaint, status), ("", 0))
        *said, last = output.splitlines()
        self.assertRegex(last, r"^ended \d+$")
        return said

    def test_hello(self):
        self.assertEqual(self.said("hello\n@a hello\n"), [
            f"hello version 0.1.0 robots 2 clients 1 width 3 height 3 chapter 0 tick 0 {LIMITS}",
            f"@a hello version 0.1.0 robots 2 clients 1 width 3 height 3 chapter 0 tick 0 {LIMITS}",
        ])
        self.assertEqual(self.said("tick 7\nchapter\nhello\nhello there\n", "--clients", "3")[2:], [
            f"hello version 0.1.0 robots 2 clients 3 width 3 height 3 chapter 1 tick 7 {LIMITS}", "bad-line 4",
        ])
        head = self.head("queue 2\nmailbox 5\nlane 7\n")
        output = self.run_program(["live", "--robots", "0,8", self.map, *head], "hello\n")[0]
        self.assertEqual(output.splitlines()[0], "hello version 0.1.0 robots 2 clients 1 width 3 height 3 chapter 0 tick 0 queue 2 mailbox 5 lane 7")

    def test_robots(self):
        self.assertEqual(self.said("robots\n@b robots\nrobots 0\n"), [*FREE, *(f"@b {line}" for line in FREE), "bad-line 3"])

    def test_robots_under_way(self):
        lines = "post 0 go 0 2\npost 0 go 0 0\npost 0 go 1 7\nrobots\ntick\nrobots\ntick\nrobots\n"
        said = [line for line in self.said(lines, "--clients", "2") if line.startswith("robot")]
        self.assertEqual(said, [
            "robot 0 cell 0 goal 2 errands 2 wait 0 busy", "robot 1 cell 8 goal 7 errands 1 wait 0 busy", "robots end 2",
            "robot 0 cell 1 goal 2 errands 2 wait 1 busy", "robot 1 cell 7 goal 7 errands 0 wait 0 free", "robots end 2",
            "robot 0 cell 2 goal 0 errands 1 wait 0 busy", "robot 1 cell 7 goal 7 errands 0 wait 0 free", "robots end 2",
        ])

    def test_robots_of_two_clients(self):
        lines = "post 1 go 0 2\npost 0 go 0 0\nrobots\n"
        self.assertEqual(self.said(lines, "--clients", "2")[4], "robot 0 cell 0 goal 2 errands 2 wait 0 busy")

    def test_robots_that_are_shut(self):
        """A shut shows in its chapter, and in those after it."""
        lines = "post 0 go 0 1\nshut 0\nshut 1\nrobots\nchapter\nrobots\ntick\nrobots\n"
        said = [line for line in self.said(lines) if line.startswith("robot")]
        shut = ["robot 0 cell 0 goal 1 errands 1 wait 0 shut", "robot 1 cell 8 goal 8 errands 0 wait 0 shut", "robots end 2"]
        self.assertEqual(said, [*shut, *shut, "robot 0 cell 1 goal 1 errands 0 wait 0 shut", *shut[1:]])

    def test_a_list_longer_than_what_may_wait(self):
        """Its lines wait for their reader one by one."""
        mark = "@" + "m" * 8000
        self.assertEqual(self.said(f"{mark} robots\n" * 20), [f"{mark} {line}" for line in FREE] * 20)

    def test_posts_that_count_once(self):
        lines = "as 1 post 0 go 0 2\nas 1 post 0 go 0 2\n@c as 3 post 0 go 0 2\nas 2 post 0 withdraw 1\nsession 0\n"
        self.assertEqual(self.said(lines), [
            "posted 0 1", "collected 0 1 verdict 1 accepted 1", "post-refused 0 4 next 2", "@c post-refused 0 4 next 2",
            "posted 0 2", "collected 0 2 verdict 2 refused 10 too-late", "session 0 orders 2 notices 2 told from 3 closed false",
        ])

    def test_posts_that_count_once_of_clients(self):
        lines = "as 1 post 1 go 0 2\nas 1 post 0 close\nas 1 post 0 close\nas 2 post 0 close\nas 3 post 0 go 0 1\nas 1 post 2 close\n"
        self.assertEqual(self.said(lines, "--clients", "2"), [
            "posted 1 1", "collected 1 1 verdict 1 accepted 1", "posted 0 1", "collected 0 1 verdict 1 closed",
            "post-refused 0 4 next 2", "post-refused 0 1 closed", "post-refused 0 4 next 2", "no-client 2",
        ])

    def test_what_is_no_such_post(self):
        lines = ["as", "as 1", "as x post 0 go 0 2", "as 1 tick", "as 1 # post", "as 1 look", "as post 0 go 0 2", "as 1 post 0", "as 1 as 1 post 0 close", "as -1 post 0 close"]
        self.assertEqual(self.said("".join(f"{line}\n" for line in lines)), [f"bad-line {number}" for number in range(1, 11)])
        self.assertEqual(self.said("as 99999999999999999999999999 post 0 close\n \tas\t 01   post 0 close \n"), [
            "post-refused 0 4 next 1", "posted 0 1", "collected 0 1 verdict 1 closed",
        ])

    def test_a_cell_to_which_posts_are_refused(self):
        """Its post has no number, so another may have that."""
        self.map.write_text(STUB)
        output = self.run_program(["live", "--roomy", "--robots", "0,2", self.map], "as 2 post 0 go 0 11\nas 1 post 0 go 0 11\nas 1 post 0 go 0 10\n")[0]
        self.assertEqual(output.splitlines()[:3], ["post-refused 0 4 next 1", "post-refused 0 3 no-room", "posted 0 1"])

    def test_posts_after_a_restart(self):
        """A client that does not know what was heard posts all of it again."""
        words = ["--traces", self.traces, "--journal", "--resume"]
        posts = "as 1 post 0 go 0 2\nas 2 post 0 go 0 0\n"
        self.assertEqual(self.said(posts, *words)[0::2], ["posted 0 1", "posted 0 2"])
        self.assertEqual(self.said(f"{posts}as 3 post 0 close\n", *words)[:3], ["post-refused 0 4 next 3", "post-refused 0 4 next 3", "posted 0 3"])

    def test_as_the_model_says(self):
        """Random conversations on demand."""
        models = model("live")
        for seed in range(60):
            draw = random.Random(seed)
            text = draw.choice((RING, OPEN))
            floor = [cell for cell, letter in enumerate("".join(text.split("\n")[4:])) if letter == "."]
            self.map.write_text(text)
            robots = draw.sample(floor, draw.randint(1, 5))
            clients = draw.randint(1, 3)
            head = f"robots {' '.join(map(str, robots))}\nclients {clients}\nqueue {draw.randint(1, 4)}\n"
            lines = "".join(self.some_line(draw, len(robots), clients, floor) for _ in range(40))
            said = self.run_program(["live", self.map, *self.head(head)], lines)
            output, complaint, status, _ = models.live(text.encode(), head.encode(), lines.encode())
            with self.subTest(seed=seed):
                self.assertEqual(said, (output.decode(), complaint, status))

    @staticmethod
    def some_line(draw, robots, clients, floor):
        client, kind, mark = draw.randrange(clients + 1), draw.randrange(10), draw.choice(("", "@m "))
        if kind < 6:
            orders = ["close"] + [f"go {draw.randrange(robots)} {draw.choice(floor)}"] * 20 + [f"withdraw {draw.randint(1, 9)}"] * 4
            return f"{mark}as {draw.randint(1, 9)} post {client} {draw.choice(orders)}\n" if kind < 4 else f"post {client} go 0 {draw.choice(floor)}\n"
        return mark + draw.choice(("tick\n", "robots\n", "hello\n", f"shut {draw.randrange(robots)}\n", "chapter\n", f"session {client}\n"))

    # ---- Python's classes

    def test_a_fleet(self):
        with LiveFleet(self.map, [0, 8], clients=2, built=PROGRAM) as fleet:
            self.assertEqual(fleet.hello(), Hello("0.1.0", 2, 2, 3, 3, 0, 0, 16, 64, 64))
            fleet.go(0, 2)
            fleet.shut(1)
            self.assertEqual(fleet.standings(), [Standing("busy", 0, 2, 1, 0), Standing("shut", 8, None, 0, None)])

    def test_a_stream(self):
        async def speak():
            async with await FleetStream.open(self.map, [0, 8], built=PROGRAM) as fleet:
                self.assertEqual(await fleet.hello(), Hello("0.1.0", 2, 1, 3, 3, 0, 0, 16, 64, 64))
                fleet.go(0, 2, note="first", number=1)
                fleet.go(0, 2, note="again", number=1)
                fleet.withdraw(1, note="back", number=2)
                self.assertEqual(await fleet.standings(), [Standing("busy", 0, 2, 1, 0), Standing("free", 8, None, 0, None)])
                return fleet.at_hand()

        self.assertEqual(asyncio.run(speak()), [
            Posted(0, 1, "first"), Judged(0, 1, "accepted", 1, "first", 1), NotPosted(0, "next", "again"),
            Posted(0, 2, "back"), Judged(0, 2, "too-late", None, "back", 2),
        ])

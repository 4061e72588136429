"""Tests of fleets that go on from a chapter that was kept. FLEET names the built program; what a fleet has to say is
compared with the model in tools/talk, or with a fleet that never stopped.
"""

import json
import os
import pathlib
import random
import shutil
import subprocess
import unittest

from kept_chapters import OPEN, PROGRAM, RING, KeptChaptersTest, model
from nashirudder import FileFailed, Fleet, OrderRefused, OutOfRange

WALLED = "type octile\nheight 3\nwidth 3\nmap\n...\n@@.\n...\n"


class ResumeTest(KeptChaptersTest):
    def talk(self, lines, *words, script=None):
        """What the program says to lines: output, complaint, status."""
        return self.run_program(["talk", "--traces", self.traces, *words, self.map, *self.head(script)], lines)

    def on(self, lines, *words, script=None):
        return self.talk(lines, "--resume", *words, script=script)

    def test_begins_and_goes_on(self):
        # An empty folder begins anew; errand 1 is done, errand 2 is under way, and number 3 follows.
        lines = "robots 0 8\npost 0 go 0 1\npost 0 go 0 6\ntake 0\ntake 0\ntick\n"
        self.assertEqual(self.on(lines)[2], 0)
        said = self.on("look\nopen 0\npost 0 go 0 2\ntake 0\ngive 0\ncollect 0\n")
        self.assertEqual(said[1:], ("", 0))
        self.assertEqual(
            said[0].splitlines(),
            [
                # One errand: 2 robots times 7 cells, the floor less one.
                "look tick 1 chapter 1 entries 0 busy eldest 0 within 14 at 1 8",
                "open 0 number 2 robot 0 cell 6 place 1",
                "open 0 end 1",
                "posted 0 3",
                "took 0 3 accepted 3",
                # Notices 1 to 3 were verdict, verdict and arrival; they were not given, and are lost.
                "gave 0 4",
                "collected 0 4 verdict 3 accepted 3",
            ],
        )
        self.assertEqual(self.chapters(), ["chapter-0.json", "chapter-1.json"])

    def test_what_stays(self):
        lines = "robots 0 8\nclients 2\npost 1 close\ntake 1\npost 0 go 1 2\ntake 0\nshut 1\nshut 0\n"
        self.assertEqual(self.on(lines)[2], 0)
        said = self.on("post 1 go 0 1\ntake 1\npost 0 go 1 5\ntake 0\nshut 0\nshut 1\ntick 2\n")[0]
        self.assertEqual(
            said.splitlines()[:6],
            ["posted 1 2", "took 1 2 refused 1 client-closed", "posted 0 2", "took 0 2 refused 3 robot-shut",
             "shut-refused 0 2 already", "shut-refused 1 2 already"],
        )
        self.assertIn("arrived robot 1 client 0 number 1 cell 2 stamp 0\nfarewell robot 1 stamp 0\n", said)
        self.assertNotIn("farewell robot 0", said)

    def test_orders_that_nobody_took_are_gone(self):
        self.on("robots 0\npost 0 go 0 1\npost 0 go 0 2\ntake 0\n")
        self.assertEqual(self.on("take 0\npost 0 go 0 2\n")[0], "lane-empty 0\nposted 0 2\n")

    def test_header_lines_come_from_the_script(self):
        self.on("robots 0 8\nlook\n")
        self.assertEqual(self.on("robots 0 8\nlane 1\nlook\n")[0].splitlines()[:2], ["bad-line 1", "bad-line 2"])
        # The robots' cells are those of the chapter, whatever the line names; limits that no chapter has are the script's.
        said = self.on("post 0 go 0 1\npost 0 go 0 1\nlook\n", script="robots 3 5\nclients 1\nqueue 16\nlane 1\n")
        self.assertEqual(said[0].splitlines()[:2], ["posted 0 1", "lane-full 0"])
        self.assertTrue(said[0].endswith("at 0 8\n"))

    def test_queue_and_life_are_the_chapters(self):
        self.on("robots 0\nqueue 1\nlife 2\nlook\n")
        said = self.on("post 0 go 0 1\npost 0 go 0 2\ntake 0\ntake 0\n")[0]
        self.assertTrue(said.endswith("took 0 1 accepted 1\ntook 0 2 refused 7 queue-full\n"), said)
        self.refused(f"{self.traces}/chapter-1.json: the header lines name another `queue` or `life`", 6, script="queue 2\n")
        self.refused(f"{self.traces}/chapter-1.json: the header lines name another `queue` or `life`", 6, script="life 3\n")

    def test_southern_closures_stay(self):
        self.map.write_text(OPEN)
        script = "ties south\n"
        self.assertEqual(self.on("robots 0\npost 0 go 0 19\ntake 0\ntick\n", script=script)[0].splitlines()[-1], "tick 1: 5")
        # Without a line `ties` they are those of the chapter: tick 7 stamps 7.
        said = self.on("tick 6\n")[0]
        self.assertIn("arrived robot 0 client 0 number 1 cell 19 stamp 7\n", said)
        self.refused(f"{self.traces}/chapter-1.json: its robots have other closures", 6, script="ties plain\n")

    def test_wrong_words(self):
        said = subprocess.run([PROGRAM, "talk", "--resume", self.map], input=b"", capture_output=True)
        self.assertEqual((said.returncode, said.stderr), (2, b"error: '--resume' needs '--traces <DIR>'\n"))
        self.on("robots 0 8\nlook\n")
        self.assertEqual(self.talk("robots 0 8\n"), ("", f"fleet: file {self.traces} has chapters of another fleet\n", 3))

    def test_wrong_heads(self):
        self.on("robots 0 8\nlook\n")
        name = f"{self.traces}/chapter-0.json"
        self.refused(f"{name}: the header lines name another number of robots", 6, script="robots 0\nclients 2\n")
        self.refused(f"{name}: the header lines name another number of clients", 6, script="robots 0 8\nclients 2\n")
        self.refused(f"{name}: no chapter follows within the limits", 6, script="chapters 1\n")

    def test_wrong_map(self):
        self.on("robots 0 3\npost 0 go 0 8\ntake 0\ntick\n")
        self.map.write_text(WALLED)
        self.refused(f"{self.traces}/chapter-0.json: the trace: entry 0, the opening: it is not in order: two robots are on one cell, or a robot is on no floor", 6)

    def test_wrong_files(self):
        self.on("robots 0 8\npost 0 go 0 1\ntake 0\n")
        for _ in range(2):
            self.on("look\n")
        last = self.traces / "chapter-2.json"
        whole = last.read_text()
        not_json = "the trace: it is not UTF-8, or not JSON, or nested deeper than 127"
        for text, why in (
            ("no trace", not_json),
            ("", not_json),
            (whole[:-9], not_json),
            ('{"version":3}', "the trace: the number under `version` is not 1 or 2"),
            ('{"version":2}', "the trace: its keys are not `version`, `chapter`, `opening` and `entries`, and no other"),
            (whole.replace('"chapter":2', '"chapter":7'), "it is chapter 7"),
        ):
            last.write_text(text)
            with self.subTest(why):
                self.refused(f"{last}: {why}", 6)
        # An errand that arrives on another cell than its own: tick, arrival and cell are those of no run.
        broken = json.loads(whole)
        broken["entries"] = [["tick", [0, 7], [[0, 0, 1, 0]], []]]
        last.write_text(json.dumps(broken))
        self.refused(
            f"{last}: the trace: entry 1, a tick: the arrivals are not those that are due: robot 0's with errand 1 of client 0"
            " is shown, and not due", 6,
        )

    def test_wrong_folders(self):
        self.on("robots 0 8\nlook\n")
        for _ in range(3):
            self.on("look\n")
        odd = self.traces / "chapter-07.json"
        odd.write_text("{}")
        self.refused(f"{odd}: no chapter has this name", 3)
        odd.unlink()
        hidden = self.path / "hidden"
        (self.traces / "chapter-2.json").rename(hidden)
        self.refused(f"{self.traces}/chapter-2.json: it is missing, and a later chapter is there", 3)
        hidden.rename(self.traces / "chapter-2.json")
        # Earlier chapters may have been put elsewhere. A part that a killed fleet left does not matter, nor do other files.
        (self.traces / "chapter-0.json").unlink()
        (self.traces / "chapter-9.part").write_text("{")
        (self.traces / "notes").write_text("")
        self.assertEqual(self.on("look\n")[2], 0)
        self.assertTrue((self.traces / "chapter-4.json").exists())
        (self.traces / "chapter-5.json").mkdir()
        self.assertEqual(self.on("look\n"), ("", f"fleet: file {self.traces}/chapter-5.json: it is a pipe, a link or a folder\n", 3))

    def test_folder_in_use(self):
        self.on("robots 0 8\nlook\n")
        with Fleet(self.map, [0, 8], traces=self.traces, resume=True, built=PROGRAM):
            self.assertEqual(self.on("look\n"), ("", f"fleet: file {self.traces} is in use by another fleet\n", 3))
        self.assertEqual(self.on("look\n")[2], 0)

    def test_killed(self):
        # What was not kept did not happen for the fleet that goes on.
        fleet = Fleet(self.map, [0, 8], traces=self.traces, built=PROGRAM)
        fleet.go(0, 1).accepted()
        fleet.chapter()
        fleet.go(0, 2).accepted()
        fleet._program.process.kill()
        fleet._program.process.wait()
        self.assertEqual(self.chapters(), ["chapter-0.json"])
        self.assertTrue((self.traces / "fleet.lock").exists())
        self.assertEqual(self.on("open 0\n")[0], "open 0 number 1 robot 0 cell 1 place 1\nopen 0 end 1\n")

    def test_chapters_follow_one_another(self):
        self.on("robots 0 8\npost 0 go 0 7\ntake 0\ntick 2\n")
        self.on("tick 2\nchapter\ntick\n", "--roll", script="chapter 3\n")
        judge = shutil.which("errands") or pathlib.Path(PROGRAM).with_name("errands")
        for name in self.chapters():
            if os.path.exists(judge):
                said = subprocess.run([judge, "judge", self.map, self.traces / name], capture_output=True)
                self.assertEqual(said.stdout, b"legal\n")
        viewed = subprocess.run([PROGRAM, "view", "--tick", "5", self.map, *(self.traces / name for name in self.chapters())], capture_output=True)
        self.assertEqual((viewed.returncode, viewed.stderr), (0, b""))

    def test_class(self):
        words = dict(clients=2, traces=self.traces, resume=True, built=PROGRAM, queue=3)
        with Fleet(self.map, [0, 8], **words) as fleet:
            self.assertEqual(fleet.go(0, 7, client=1).accepted(), 1)
            fleet.tick()
            cells = fleet.cells
        with Fleet(self.map, [0, 8], **words) as fleet:
            self.assertEqual((fleet.cells, fleet.look().tick, fleet.look().chapter), (cells, 1, 1))
            self.assertEqual(fleet.go(0, 8, client=1).accepted(), 2)
            fleet.tick(fleet.look().within)
            self.assertEqual([arrival.number for arrival in fleet.arrivals if arrival.client == 1], [1, 2])
        with self.assertRaises(FileFailed):
            Fleet(self.map, [0], **words)
        with self.assertRaises(OutOfRange):
            Fleet(self.map, [0, 8], resume=True, built=PROGRAM)

    def test_as_if_it_never_stopped(self):
        """Random conversations, each cut in four. What a fleet that goes on says is what the model says of it; and its
        orders, ticks and arrivals are those that the model has of a fleet that never stopped.
        """
        models = model("talk")
        for seed in range(40):
            draw = random.Random(seed)
            text = draw.choice((RING, OPEN, WALLED))
            floor = [cell for cell, letter in enumerate("".join(text.split("\n")[4:])) if letter == "."]
            self.map.write_text(text)
            robots = draw.sample(floor, draw.randint(1, min(5, len(floor) - 1)))
            clients = draw.randint(1, 3)
            head = f"robots {' '.join(map(str, robots))}\nclients {clients}\nties {draw.choice(('plain', 'south'))}\nmailbox 1000\nqueue {draw.randint(1, 4)}\n"
            parts = ["".join(self.some_line(draw, robots, clients, floor) for _ in range(draw.randint(0, 25))) for _ in range(4)]
            for name in self.chapters():
                (self.traces / name).unlink()
            said, kept = "", None
            for lines in parts:
                told = self.on(lines, script=head)
                output, complaint, status = models.talk(text.encode(), head.encode(), lines.encode(), kept=kept)
                with self.subTest(seed=seed):
                    self.assertEqual(told, (output.decode(), complaint, status))
                said += told[0]
                numbers = [int(name[len("chapter-"):-len(".json")]) for name in self.chapters()]
                if numbers:
                    name = self.traces / f"chapter-{max(numbers)}.json"
                    kept = str(name), max(numbers), name.read_bytes()
            whole = models.talk(text.encode(), head.encode(), "".join(parts).encode())[0].decode()
            with self.subTest(seed=seed):
                self.assertEqual(self.events_in(said), self.events_in(whole))

    @staticmethod
    def some_line(draw, robots, clients, floor):
        """A line, or an order that is taken at once: what waits in a lane is not kept."""
        client, kind = draw.randrange(clients), draw.randrange(10)
        if kind < 5:
            orders = ["close"] + [f"go {draw.randrange(len(robots))} {draw.choice(floor)}"] * 20 + [f"withdraw {draw.randint(1, 9)}"] * 4
            return f"post {client} {draw.choice(orders)}\ntake {client}\n"
        if kind < 9:
            return "tick\n" if kind < 8 else "tick 3\n"
        return draw.choice((f"shut {draw.randrange(len(robots))}\n", "look\n", f"open {client}\n", "chapter\n"))

    @staticmethod
    def events_in(text):
        """The lines that do not tell how the chapters were cut."""
        return [line for line in text.splitlines() if line.split()[0] not in ("look", "chapter")]


if __name__ == "__main__":
    unittest.main()

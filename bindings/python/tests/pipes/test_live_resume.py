"""Tests of fleets in real time that go on from a chapter that was kept. FLEET names the built program. What a fleet has
to say is worked out by hand, or is what the model in tools/live says.
"""

import os
import random
import subprocess
import time
import unittest

from kept_chapters import OPEN, PROGRAM, RING, KeptChaptersTest, model
from nashirudder import FileFailed, Fleet, LiveFleet, OpenErrand, OutOfRange


class LiveResumeTest(KeptChaptersTest):
    def on(self, lines, *words, robots="0,8", script=None):
        """What the program says to lines: output, complaint, status."""
        starts = [] if robots is None else ["--robots", robots]
        words = ["live", "--traces", self.traces, "--resume", *starts, *words, self.map, *self.head(script)]
        return self.run_program(words, lines)

    def test_begins_and_goes_on(self):
        said = self.on("post 0 go 0 7\ntick\n")
        self.assertEqual(said, ("posted 0 1\ncollected 0 1 verdict 1 accepted 1\ntick 1: 3 8\nended 1\n", "", 0))
        said = self.on("open 0\ntick 2\npost 0 go 0 6\nlook\n")
        self.assertEqual(said[1:], ("", 0))
        self.assertEqual(
            said[0].splitlines(),
            [
                "open 0 number 1 robot 0 cell 7 place 1",
                "open 0 end 1",
                "collected 0 2 arrived 1 robot 0 cell 7 tick 3 stamp 0",
                "tick 3: 7 8",
                "posted 0 2",
                "collected 0 3 verdict 2 accepted 2",
                # One errand: 2 robots times 7 cells, the floor less one.
                "look tick 3 chapter 1 entries 3 busy eldest 0 within 14 at 7 8",
                "ended 3",
            ],
        )
        self.assertEqual(self.chapters(), ["chapter-0.json", "chapter-1.json"])

    def test_goes_on_from_a_conversation_and_back(self):
        talk = ["talk", "--traces", self.traces, "--resume", self.map]
        self.assertEqual(self.run_program(talk, "robots 0 8\nclients 2\npost 1 go 0 6\ntake 1\n")[1:], ("", 0))
        said = self.on("open 1\ntick\n", "--clients", "2")
        self.assertEqual(said, ("open 1 number 1 robot 0 cell 6 place 1\nopen 1 end 1\ntick 1: 3 8\nended 1\n", "", 0))
        said = self.run_program(talk, "tick\n")
        self.assertEqual(said, ("tick 2: 6 8\narrived robot 0 client 1 number 1 cell 6 stamp 0\n", "", 0))

    def test_numbers_of_each_client_go_on(self):
        lines = "post 0 go 0 1\npost 1 go 1 7\npost 1 go 1 5\npost 1 close\ntick\n"
        self.assertEqual(self.on(lines, "--clients", "3")[1:], ("", 0))
        said = self.on("post 0 go 0 2\npost 1 go 1 3\npost 2 go 0 3\npost 1 close\npost 1 go 1 3\n", "--clients", "3")[0]
        self.assertEqual(
            said.splitlines(),
            [
                "posted 0 2", "collected 0 3 verdict 2 accepted 2",
                "posted 1 4", "collected 1 5 verdict 4 refused 1 client-closed",
                "posted 2 1", "collected 2 1 verdict 1 accepted 1",
                "posted 1 5", "collected 1 6 verdict 5 refused 1 client-closed",
                "post-refused 1 1 closed",
                "ended 1",
            ],
        )

    def test_clients_of_the_chapter_may_have_pipes(self):
        self.on("post 1 go 0 1\n", "--clients", "2")
        for way in ("in", "out"):
            for at in "012":
                os.mkfifo(self.path / (way + at))
        pipes = [word for at in (0, 1) for word in ("--client", f"{self.path}/in{at},{self.path}/out{at}")]
        # Neither words nor a script name the clients.
        self.assertEqual(self.on("tick\n", *pipes)[1:], ("", 0))
        more = self.on("tick\n", *pipes, "--client", f"{self.path}/in2,{self.path}/out2")
        self.assertEqual(more, ("", "error: more '--client <IN,OUT>' than clients\n", 2))

    def test_heads_and_words(self):
        self.on("tick\n", "--clients", "2")
        self.assertEqual(self.on("look\n", robots=None)[1:], ("", 0))
        name = f"{self.traces}/chapter-1.json"
        self.refused(f"{name}: the header lines name another number of robots", 6, robots="0")
        self.refused(f"{name}: the header lines name another number of clients", 6, "--clients", "3")
        self.refused(f"{name}: the header lines name another `queue` or `life`", 6, script="queue 2\n")
        self.refused(f"{name}: its robots have other closures", 6, script="ties south\n")
        self.refused(f"{name}: no chapter follows within the limits", 6, script="chapters 2\n")

    def test_folders(self):
        self.on("tick\n")
        odd = self.traces / "chapter-01.json"
        odd.write_text("{}")
        self.refused(f"{odd}: no chapter has this name", 3)
        odd.unlink()
        (self.traces / "chapter-3.json").write_text("{")
        self.refused(f"{self.traces}/chapter-2.json: it is missing, and a later chapter is there", 3)
        (self.traces / "chapter-3.json").rename(self.traces / "chapter-1.json")
        why = "the trace: it is not UTF-8, or not JSON, or nested deeper than 127"
        self.refused(f"{self.traces}/chapter-1.json: {why}", 6)

    def test_wrong_words(self):
        words = ["live", "--robots", "0,8"]
        for more, why in (
            (["--resume"], "error: '--resume' needs '--traces <DIR>'\n"),
            (["--keep-every", "1s"], "error: '--keep-every' needs '--traces <DIR>'\n"),
            (["--traces", self.traces, "--keep-every", "1"], "error: invalid value for '--keep-every <TIME>'\n"),
            (["--traces", self.traces, "--keep-every", "0s"], "error: invalid value for '--keep-every <TIME>'\n"),
        ):
            with self.subTest(more=more):
                self.assertEqual(self.run_program([*words, *more, self.map], ""), ("", why, 2))
        self.assertEqual(self.chapters(), [])

    def live(self, **words):
        return LiveFleet(self.map, [0, 8], traces=self.traces, resume=True, built=PROGRAM, timeout=60, **words)

    def whole(self):
        return [name for name in self.chapters() if name.endswith(".json")]

    def kill(self, fleet):
        fleet._program.process.kill()
        fleet._program.process.wait()

    def wait_for(self, there):
        until = time.monotonic() + 30
        while not there():
            self.assertLess(time.monotonic(), until)
            time.sleep(0.01)

    def test_keeps_a_chapter_each_period(self):
        # On demand: no chapter without an entry.
        fleet = self.live(keep_every_ms=20)
        time.sleep(0.3)
        self.assertEqual(self.chapters(), [])
        errand = fleet.go(0, 7)
        self.assertEqual(errand.accepted(30), 1)
        self.wait_for(lambda: "chapter-0.json" in self.chapters())
        fleet.tick()
        self.wait_for(lambda: "chapter-1.json" in self.chapters())
        time.sleep(0.1)
        self.assertEqual((fleet.look().chapter, self.chapters()), (2, ["chapter-0.json", "chapter-1.json"]))
        self.kill(fleet)
        with self.live() as fleet:
            self.assertEqual((fleet.look().tick, fleet.cells), (1, [3, 8]))
            self.assertEqual(fleet.open_errands(), [OpenErrand(0, 1, 0, 7, 1)])
            self.assertEqual(fleet.go(0, 6).accepted(30), 2)

    def test_killed_in_real_time(self):
        words = dict(period_ms=5, keep_every_ms=20)
        done = 0
        for _ in range(4):
            fleet = self.live(**words)
            self.assertEqual(fleet.open_errands(), [])
            errand = fleet.go(0, (1, 3)[done % 2])
            self.assertEqual(errand.accepted(30), done + 1)
            errand.arrived(30)
            done += 1
            # Whatever was told before is kept once this chapter is: one may have been on its way.
            kept = len(self.whole())
            self.wait_for(lambda: len(self.whole()) > kept + 1)
            self.kill(fleet)
        with self.live(**words) as fleet:
            self.assertEqual(fleet.go(1, 5).accepted(30), done + 1)

    def test_figures(self):
        figures = self.path / "figures"

        def figure(name):
            lines = figures.read_text().splitlines() if figures.exists() else []
            return next((int(line.split()[1]) for line in lines if line.startswith(name + " ")), None)

        self.on("post 0 go 0 7\npost 0 go 0 2\npost 0 go 1 2\n")
        program = subprocess.Popen(
            [PROGRAM, "live", "--traces", self.traces, "--resume", "--metrics", figures, self.map],
            stdin=subprocess.PIPE, stdout=subprocess.DEVNULL,
        )
        self.wait_for(lambda: figure("fleet_errands_open") == 3)
        program.stdin.write(b"tick 4\npost 0 go 0 1\n")
        program.stdin.flush()
        # Robot 0 is on cell 7 after 3 ticks, robot 1 on cell 2 after 2.
        self.wait_for(lambda: figure("fleet_errands_open") == 2)
        self.assertEqual((figure("fleet_queued_errands"), figure("fleet_arrivals_total")), (2, 2))
        program.communicate(b"quit\n")
        self.assertEqual(program.returncode, 0)

    def test_class(self):
        with self.assertRaises(OutOfRange):
            LiveFleet(self.map, [0, 8], resume=True, built=PROGRAM)
        with self.assertRaises(OutOfRange):
            LiveFleet(self.map, [0, 8], keep_every_ms=100, built=PROGRAM)
        with self.live(clients=2) as fleet:
            self.assertEqual(fleet.go(0, 7, client=1).accepted(30), 1)
            fleet.tick()
        with self.live(clients=2) as fleet:
            self.assertEqual((fleet.look().tick, fleet.look().chapter, fleet.cells), (1, 1, [3, 8]))
            errand = fleet.go(0, 8, client=1)
            self.assertEqual(errand.accepted(30), 2)
            fleet.tick(2)
            self.assertEqual([arrival.number for arrival in fleet.arrivals], [1])
        with self.assertRaises(FileFailed):
            self.live(clients=1)
        with Fleet(self.map, [0, 8], clients=2, traces=self.traces, resume=True, built=PROGRAM) as fleet:
            self.assertEqual([errand.number for errand in fleet.open_errands(1)], [2])

    def test_as_the_model_says(self):
        """Random conversations on demand, each cut in four."""
        models = model("live")
        for seed in range(30):
            draw = random.Random(seed)
            text = draw.choice((RING, OPEN))
            floor = [cell for cell, letter in enumerate("".join(text.split("\n")[4:])) if letter == "."]
            self.map.write_text(text)
            robots = draw.sample(floor, draw.randint(1, min(5, len(floor) - 1)))
            clients = draw.randint(1, 3)
            head = f"robots {' '.join(map(str, robots))}\nclients {clients}\nties {draw.choice(('plain', 'south'))}\n"
            head += f"mailbox {draw.randint(2, 9)}\nchapter {draw.randint(1, 9)}\nqueue {draw.randint(1, 4)}\n"
            for name in self.chapters():
                (self.traces / name).unlink()
            kept = None
            for _ in range(4):
                lines = "".join(self.some_line(draw, robots, clients, floor) for _ in range(draw.randint(0, 20)))
                told = self.on(lines, robots=None, script=head)
                output, complaint, status, _ = models.live(text.encode(), head.encode(), lines.encode(), kept=kept)
                with self.subTest(seed=seed):
                    self.assertEqual(told, (output.decode(), complaint, status))
                numbers = [int(name[len("chapter-"):-len(".json")]) for name in self.chapters()]
                name = self.traces / f"chapter-{max(numbers)}.json"
                kept = str(name), max(numbers), name.read_bytes()

    @staticmethod
    def some_line(draw, robots, clients, floor):
        client, kind = draw.randrange(clients), draw.randrange(10)
        if kind < 6:
            orders = ["close"] + [f"go {draw.randrange(len(robots))} {draw.choice(floor)}"] * 20 + [f"withdraw {draw.randint(1, 9)}"] * 4
            return f"post {client} {draw.choice(orders)}\n"
        if kind < 9:
            return "tick\n" if kind < 8 else "tick 3\n"
        return draw.choice((f"shut {draw.randrange(len(robots))}\n", "look\n", f"open {client}\n", "chapter\n"))


if __name__ == "__main__":
    unittest.main()

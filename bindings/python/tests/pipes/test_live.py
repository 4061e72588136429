"""Tests of LiveFleet, and of `fleet live`, against a built program: FLEET names it."""

import json
import os
import shutil
import signal
import subprocess
import tempfile
import time
import unittest

from nashirudder import Ended, LiveFleet, OpenErrand, Refused, Waiting, finding
from nashirudder.names import Verdict

PROGRAM = finding.program(os.environ.get("FLEET"))

TOOLS = os.path.join(os.path.dirname(os.path.abspath(__file__)), "..", "..", "..", "..", "tools", "live")
PICTURE, RUN = os.path.join(TOOLS, "picture"), os.path.join(TOOLS, "run")

RING = "type octile\nheight 3\nwidth 3\nmap\n...\n.@.\n...\n"


class LiveTest(unittest.TestCase):
    def setUp(self):
        self.folder = tempfile.TemporaryDirectory()
        self.addCleanup(self.folder.cleanup)
        self.map = os.path.join(self.folder.name, "site.map")
        with open(self.map, "w") as file:
            file.write(RING)

    def fleet(self, robots, **words):
        fleet = LiveFleet(self.map, robots=robots, built=PROGRAM, **words)
        self.addCleanup(fleet.close)
        return fleet

    def run_lines(self, lines, *words):
        done = subprocess.run([PROGRAM, "live", *words, self.map], input=lines.encode(), capture_output=True)
        return done.returncode, done.stdout.decode(), done.stderr.decode()

    def test_robots_arrive_by_themselves(self):
        ticks = []
        with self.fleet([0, 8], period_ms=5, on_tick=lambda tick, cells: ticks.append((tick, cells))) as fleet:
            first, second = fleet.go(0, 1), fleet.go(1, 7)
            self.assertEqual((first.accepted(10), second.accepted(10)), (1, 2))
            self.assertEqual((first.arrived(10).cell, second.arrived(10).robot), (1, 1))
            time.sleep(0.1)
        self.assertEqual(fleet.status, 0)
        self.assertEqual([tick for tick, _ in ticks], list(range(1, len(ticks) + 1)))
        self.assertEqual(ticks[-1][1], [1, 7])

    def test_on_demand(self):
        with self.fleet([0, 8], clients=2) as fleet:
            errand = fleet.go(0, 2, client=1)
            with self.assertRaises(Waiting):
                errand.arrived(timeout=0.05)
            self.assertEqual(fleet.tick(2), [2, 8])
            self.assertEqual(errand.arrived().tick, 2)
            self.assertEqual(fleet.arrivals, [errand.arrived()])
            self.assertTrue(fleet.look().idle)
            self.assertEqual(fleet.shut(0).robot, 0)
            self.assertEqual(fleet.chapter().entries, 4)

    def test_open_errands(self):
        with self.fleet([0, 8], clients=2) as fleet:
            fleet.go(0, 2), fleet.go(1, 7), fleet.go(0, 3)
            first, second, third = OpenErrand(0, 1, 0, 2, 1), OpenErrand(0, 3, 0, 3, 2), OpenErrand(0, 2, 1, 7, 1)
            self.assertEqual((fleet.open_errands(), fleet.open_errands(1)), ([first, second, third], []))
            fleet.tick()
            self.assertEqual(fleet.open_errands(), [first, second])
            with self.assertRaises(Refused):
                fleet.open_errands(2)
            self.assertEqual(fleet.look().tick, 1)

    def test_a_verdict_waits_for_no_turn(self):
        for words in ({}, {"period_ms": 3600000}):
            with self.fleet([0, 8], **words) as fleet:
                self.assertEqual(fleet.go(0, 2).accepted(10), 1)
                with self.assertRaises(Refused):
                    fleet.go(0, 4).accepted(10)
                self.assertEqual((fleet.look().tick, fleet.look().entries), (0, 2))

    def test_turns_go_on_while_chapters_are_written(self):
        ticks = []
        with self.fleet([0, 8], period_ms=1, traces=self.folder.name, chapter=20, on_tick=lambda tick, _: ticks.append(tick)) as fleet:
            for cell in (1, 2, 5, 3) * 5:
                fleet.go(0, cell).arrived(10)
        self.assertEqual(ticks, list(range(1, len(ticks) + 1)))
        names = [f"chapter-{number}.json" for number in range(len(ticks) // 20)]
        for name in names:
            with open(os.path.join(self.folder.name, name)) as file:
                self.assertEqual(len(json.load(file)["entries"]), 20)
        self.assertEqual([name for name in os.listdir(self.folder.name) if name.endswith(".part")], [])

    def test_a_picture(self):
        page = os.path.join(self.folder.name, "fleet.html")
        done = subprocess.run([PICTURE, self.map, page], input=b"tick 7: 2 8\nended 7\n", capture_output=True)
        self.assertEqual((done.returncode, done.stdout), (0, b"ended 7\n"))
        with open(page) as file:
            text = file.read()
        self.assertEqual((text.count("<circle"), "tick 7" in text, 'cx="2.5" cy="0.5"' in text), (2, True, True))

    def test_refusals(self):
        with self.assertRaises(Refused) as caught:
            self.fleet([0, 4])
        self.assertEqual(caught.exception.name, "start-blocked")
        with self.fleet([0, 8]) as fleet:
            errand = fleet.go(0, 4)
            fleet.tick()
            with self.assertRaises(Refused) as caught:
                errand.accepted()
            self.assertEqual((caught.exception.code, caught.exception.name), (Verdict.BLOCKED, "blocked"))
            with self.assertRaises(Refused):
                fleet.go(0, 1, client=1)
        with self.assertRaises(Ended):
            fleet.look()

    def test_words(self):
        for words in (["--robots", "0;8"], ["--robots", "0", "--period", "0ms"], ["--robots", "0", "--period", "20"], ["--robots", "0", "--clients", "x"], ["--robots", "0", "--tickers", "2"],
                      ["--robots", "0", "--clients", "0"], ["--robots", "0", "--clients", "65"], ["--robots", "0", "--traces", ""]):
            status, output, complaint = self.run_lines("", *words)
            self.assertEqual((status, output), (2, ""))
            self.assertTrue(complaint.startswith("error: "))
        self.assertEqual(self.run_lines("")[0::2], (5, "fleet: opening 2 no-robots\n"))

    def test_the_same_lines_get_the_same_answers(self):
        lines = "post 0 go 0 5\npost 0 go 1 3\nwatch on\n" + "tick 3\npost 0 go 0 0\n\nteleport\nlook\n" * 200
        outputs = {self.run_lines(lines, "--robots", "0,8") for _ in range(5)}
        self.assertEqual(len(outputs), 1)

    def test_the_end_of_input_stops_the_turns(self):
        begun = time.monotonic()
        status, output, _ = self.run_lines("look\n", "--robots", "0", "--period", "3600s")
        self.assertEqual((status, output.split("\n")[-2]), (0, "ended 0"))
        self.assertLess(time.monotonic() - begun, 10)

    def test_a_killed_program_leaves_whole_chapters(self):
        script = os.path.join(self.folder.name, "head.script")
        with open(script, "w") as file:
            file.write("robots 0 8\nchapter 50\n")
        process = subprocess.Popen(
            [PROGRAM, "live", "--period", "100us", "--traces", self.folder.name, self.map, script],
            stdin=subprocess.PIPE, stdout=subprocess.DEVNULL,
        )
        first = os.path.join(self.folder.name, "chapter-0.json")
        for _ in range(1000):
            if os.path.exists(first):
                break
            time.sleep(0.01)
        process.send_signal(signal.SIGKILL)
        process.wait()
        process.stdin.close()
        names = [name for name in os.listdir(self.folder.name) if name.endswith(".json")]
        self.assertIn("chapter-0.json", names)
        for name in names:
            with open(os.path.join(self.folder.name, name)) as file:
                self.assertEqual(len(json.load(file)["entries"]), 50)

    def test_a_pipe_is_named_once(self):
        names = [os.path.join(self.folder.name, name) for name in ("in0", "out0", "in1")]
        for name in names:
            os.mkfifo(name)
        way, back, other = names
        for pipes in ([f"{way},{way}"], [f"{way},{back}", f"{other},{back}"], [f"{way},{back}", f"{back},{other}"]):
            words = [word for one in pipes for word in ("--client", one)]
            status, output, complaint = self.run_lines("look\n", "--robots", "0,8", "--clients", "2", *words)
            self.assertEqual((status, output), (2, ""))
            self.assertTrue(complaint.startswith("error: a pipe is named twice"))

    def test_outlets_hold_back_nothing(self):
        with self.fleet([0, 8], outlet=1) as fleet:
            first, second = fleet.go(0, 1), fleet.go(1, 7)
            fleet.tick()
            self.assertEqual((first.arrived(timeout=5).tick, second.arrived(timeout=5).tick), (1, 1))

    def head(self, lines):
        script = os.path.join(self.folder.name, "head.script")
        with open(script, "w") as file:
            file.write(lines)
        return script

    def traces(self):
        folder = os.path.join(self.folder.name, "traces")
        os.mkdir(folder)
        return folder

    def chapters_in(self, folder):
        """The numbers of entries of the chapters, which are all that the folder has."""
        names = sorted((name for name in os.listdir(folder) if name != "fleet.lock"), key=lambda name: int(name[8:-5]))
        counts = []
        for number, name in enumerate(names):
            self.assertEqual(name, f"chapter-{number}.json")
            with open(os.path.join(folder, name)) as file:
                counts.append(len(json.load(file)["entries"]))
        return counts

    def test_folders_of_chapters(self):
        folder = self.traces()
        words = ["--robots", "0,8", "--traces", folder]
        complaint = f"fleet: file {folder} "
        with subprocess.Popen([PROGRAM, "live", *words, self.map], stdin=subprocess.PIPE, stdout=subprocess.PIPE) as process:
            process.stdin.write(b"look\n")
            process.stdin.flush()
            self.assertTrue(process.stdout.readline().startswith(b"look "))
            self.assertEqual(self.run_lines("look\n", *words), (3, "", complaint + "is in use by another fleet\n"))
            process.stdin.close()
            process.stdout.read()
        self.assertEqual(process.returncode, 0)
        self.assertEqual(self.chapters_in(folder), [0])
        told = complaint + "has chapters of another fleet\n"
        self.assertEqual(self.run_lines("tick\n", *words), (3, "", told))
        talk = subprocess.run([PROGRAM, "talk", "--traces", folder, self.map], input=b"robots 0\ntick\n", capture_output=True)
        self.assertEqual((talk.returncode, talk.stdout, talk.stderr.decode()), (3, b"", told))
        self.assertEqual(self.chapters_in(folder), [0])
        missing = os.path.join(self.folder.name, "missing")
        told = (3, "", f"fleet: file {missing} cannot be written: No such file or directory (os error 2)\n")
        self.assertEqual(self.run_lines("tick\n", "--robots", "0,8", "--traces", missing), told)

    def test_a_chapter_that_waits(self):
        folder = self.traces()
        part = os.path.join(folder, "chapter-1.part")
        os.mkdir(part)
        words = ["--period", "1ms", "--traces", folder, self.map, self.head("robots 0 8\nchapter 200\n")]
        with subprocess.Popen([PROGRAM, "live", *words], stdin=subprocess.PIPE, stdout=subprocess.PIPE, stderr=subprocess.PIPE) as process:
            self.assertEqual(process.stderr.readline().decode(), f"fleet: file {folder}/chapter-1.json cannot be written: Is a directory (os error 21)\n")
            time.sleep(0.5)
            self.assertEqual(sorted(os.listdir(folder)), ["chapter-0.json", "chapter-1.part", "fleet.lock"])
            os.rmdir(part)
            for _ in range(1000):
                if os.path.exists(os.path.join(folder, "chapter-2.json")):
                    break
                time.sleep(0.01)
            process.stdin.close()
            last = process.stdout.read().splitlines()[-1]
        self.assertEqual(process.returncode, 0)
        counts = self.chapters_in(folder)
        self.assertGreater(len(counts), 2)
        self.assertEqual(set(counts[:-1]), {200})
        self.assertEqual(last, f"ended {sum(counts)}".encode())

    def test_chapters_that_cannot_be_kept_end_the_fleet(self):
        folder = self.traces()
        os.mkdir(os.path.join(folder, "chapter-1.part"))
        words = ["--period", "1ms", "--traces", folder, self.map, self.head("robots 0 8\nchapter 20\n")]
        with subprocess.Popen([PROGRAM, "live", *words], stdin=subprocess.PIPE, stdout=subprocess.PIPE, stderr=subprocess.PIPE) as process:
            process.stdin.write(b"post 0 go 0 1\n")
            process.stdin.flush()
            output, complaint = process.stdout.read().decode(), process.stderr.read().decode()
            process.stdin.close()
        self.assertEqual(process.returncode, 3)
        lines = output.splitlines()
        self.assertEqual(lines[:2], ["posted 0 1", "collected 0 1 verdict 1 accepted 1"])
        self.assertTrue(lines[2].startswith("collected 0 2 arrived 1 "))
        self.assertTrue(lines[-1].startswith("ended "))
        why = "cannot be written: Is a directory (os error 21)"
        self.assertEqual(set(complaint.splitlines()), {f"fleet: file {folder}/chapter-1.json {why}", f"fleet: file {folder} {why}"})
        self.assertEqual(sorted(os.listdir(folder)), ["chapter-0.json", "chapter-1.part", "fleet.lock"])

    def test_the_end_is_seen_while_nobody_reads(self):
        for quits in (True, False):
            folder = self.traces()
            words = ["--robots", "0,8", "--period", "2ms", "--traces", folder]
            with subprocess.Popen([PROGRAM, "live", *words, self.map], stdin=subprocess.PIPE, stdout=subprocess.PIPE) as process:
                # Each answer has more than 50 bytes, so that more wait than a pipe and a conversation have room for.
                process.stdin.write(b"@m look\n" * 4000 + b"post 0 go 0 1\n" + b"quit\n" * quits)
                process.stdin.flush()
                if not quits:
                    process.stdin.close()
                last = os.path.join(folder, "chapter-0.json")
                for _ in range(1000):
                    if os.path.exists(last):
                        break
                    time.sleep(0.01)
                with open(last) as file:
                    entries = json.load(file)["entries"]
                time.sleep(0.1)
                lines = process.stdout.read().decode().splitlines()
                process.stdin.close()
            self.assertEqual(process.returncode, 0)
            self.assertEqual(self.chapters_in(folder), [len(entries)])
            self.assertEqual(len([line for line in lines if line.startswith("@m look tick ")]), 4000)
            self.assertIn("posted 0 1", lines)
            self.assertIn("collected 0 1 verdict 1 accepted 1", lines)
            self.assertEqual(lines[-1], f"ended {len([entry for entry in entries if entry[0] == 'tick'])}")
            shutil.rmtree(folder)

    def test_a_look_before_a_full_dead_end(self):
        """A corridor of four cells: robot 1 stands on its last cell, to which robot 0 is sent."""
        with tempfile.TemporaryDirectory() as folder:
            path = os.path.join(folder, "corridor.map")
            with open(path, "w") as file:
                file.write("type octile\nheight 1\nwidth 4\nmap\n....\n")
            words = [PROGRAM, "live", "--robots", "1,3", path]
            done = subprocess.run(words, input="look\npost 0 go 0 3\ntick 2\nlook\n", capture_output=True, text=True, timeout=60)
        looks = [line for line in done.stdout.splitlines() if line.startswith("look ")]
        self.assertEqual(looks, [
            "look tick 0 chapter 0 entries 0 idle within 0 at 1 3",
            "look tick 2 chapter 0 entries 3 busy eldest 0 blocked 3 at 2 3",
        ])

    def test_quit_ends_a_tick_that_takes_long(self):
        with subprocess.Popen([PROGRAM, "live", "--robots", "0,8", self.map], stdin=subprocess.PIPE, stdout=subprocess.PIPE) as process:
            process.stdin.write(b"@t tick 1000000\nquit\n")
            process.stdin.flush()
            lines = process.stdout.read().decode().splitlines()
        self.assertEqual(process.returncode, 0)
        self.assertEqual(len(lines), 2)
        tick = int(lines[1].split()[1])
        self.assertEqual(lines, [f"@t tick {tick}: 0 8", f"ended {tick}"])
        self.assertTrue(65536 <= tick < 1000000)

    def test_nothing_is_said_after_ended(self):
        # The fleet ends at its limits, while the client still posts.
        script = os.path.join(self.folder.name, "limits.txt")
        with open(script, "w") as file:
            file.write("chapter 4\nchapters 2\n")
        for _ in range(20):
            words = [PROGRAM, "live", "--robots", "0,8", "--period", "2ms", self.map, script]
            with subprocess.Popen(words, stdin=subprocess.PIPE, stdout=subprocess.PIPE, stderr=subprocess.PIPE, bufsize=0) as process:
                try:
                    for cell in (3, 1) * 100:
                        process.stdin.write(f"post 0 go 0 {cell}\n".encode())
                        time.sleep(0.001)
                except BrokenPipeError:
                    pass
                lines = process.stdout.read().decode().splitlines()
                self.assertEqual(process.stderr.read(), b"fleet: limit\n")
            self.assertEqual(process.returncode, 8)
            self.assertEqual([line.split()[0] for line in lines].index("ended"), len(lines) - 1)

    def test_signals_end_the_fleet(self):
        for number in (signal.SIGTERM, signal.SIGINT):
            folder = self.traces()
            words = [RUN, PROGRAM, "live", "--robots", "0,8", "--period", "2ms", "--traces", folder, self.map]
            # A shell in the background has its programs ignore some signals, and they then cannot be trapped.
            heeded = lambda: signal.signal(number, signal.SIG_DFL)
            with subprocess.Popen(words, stdin=subprocess.PIPE, stdout=subprocess.PIPE, preexec_fn=heeded) as process:
                process.stdin.write(b"post 0 go 0 1\n")
                process.stdin.flush()
                lines = [process.stdout.readline().decode() for _ in range(3)]
                process.send_signal(number)
                lines += process.stdout.read().decode().splitlines()
                process.stdin.close()
            self.assertEqual(process.returncode, 0)
            self.assertTrue(lines[2].startswith("collected 0 2 arrived 1 "))
            entries = sum(self.chapters_in(folder))
            self.assertEqual(lines[3:], [f"ended {entries - 1}"])
            shutil.rmtree(folder)
        done = subprocess.run([RUN, PROGRAM, "live", "--robots", "0,8", self.map], input=b"tick 3\n", capture_output=True)
        self.assertEqual((done.returncode, done.stdout), (0, b"tick 3: 0 8\nended 3\n"))
        done = subprocess.run([RUN, PROGRAM, "live", "--robots", "4", self.map], stdin=subprocess.DEVNULL, capture_output=True)
        self.assertEqual((done.returncode, done.stdout), (5, b""))

    def test_closed_descriptors(self):
        ways = [("<&-", "fleet: file standard input is closed\n"), (">&-", "fleet: file standard output is closed\n"), ("2>&-", "")]
        for word, head in (("live", ["--robots", "0,8"]), ("talk", [])):
            for way, complaint in ways:
                line = f'"$@" {way}'
                done = subprocess.run(["sh", "-c", line, "sh", PROGRAM, word, *head, self.map], input=b"look\n", capture_output=True)
                self.assertEqual((done.returncode, done.stdout, done.stderr.decode()), (3, b"", complaint))

    def figures(self, name):
        with open(name) as file:
            lines = [line for line in file.read().splitlines() if not line.startswith("#")]
        return dict(line.rsplit(" ", 1) for line in lines)

    def test_figures(self):
        name = os.path.join(self.folder.name, "figures")
        for period in ([], ["--period", "5ms"]):
            words = ["--traces", self.traces(), "--metrics", name, *period, self.map, self.head("robots 0 8\nchapter 20\n")]
            with subprocess.Popen([PROGRAM, "live", *words], stdin=subprocess.PIPE, stdout=subprocess.PIPE) as process:
                process.stdin.write(b"post 0 go 0 1\npost 0 go 0 4\n" + b"tick 50\n" * (not period))
                process.stdin.flush()
                seen, begun = {}, time.monotonic()
                # They are shown in the middle of what is asked, too.
                while (seen.get("fleet_arrivals_total") != "1" or not period and seen["fleet_ticks_total"] != "50") and time.monotonic() - begun < 10:
                    time.sleep(0.05)
                    seen = self.figures(name)
                process.stdin.close()
                process.stdout.read()
            self.assertEqual(process.returncode, 0)
            verdicts = {name.split('"')[1]: count for name, count in seen.items() if name.startswith("fleet_verdicts_total")}
            self.assertEqual(len(verdicts), 13)
            self.assertEqual({verdict: count for verdict, count in verdicts.items() if count != "0"}, {"accepted": "1", "blocked": "1"})
            # 8 cells and 2 robots: no wait reaches 2 times 7.
            wanted = {"fleet_orders_total": "2", "fleet_errands_open": "0", "fleet_wait_ticks": "0", "fleet_wait_limit_ticks": "14", "fleet_chapters_waiting": "0"}
            if not period:
                wanted.update({"fleet_ticks_total": "50", "fleet_turns_late_total": "0", "fleet_turns_left_out_total": "0", "fleet_turn_lateness_seconds_count": "0", "fleet_chapters_kept_total": "2"})
            self.assertEqual({name: seen[name] for name in wanted}, wanted)
            self.assertGreater(int(seen["fleet_ticks_total"]), 0)
            self.assertEqual(os.path.exists(name + ".part"), False)
            for chapter in os.listdir(os.path.join(self.folder.name, "traces")):
                os.remove(os.path.join(self.folder.name, "traces", chapter))
            os.rmdir(os.path.join(self.folder.name, "traces"))
        name = os.path.join(self.folder.name, "missing", "figures")
        self.assertEqual(self.run_lines("look\n", "--robots", "0,8", "--metrics", name), (3, "", f"fleet: file {name} cannot be written: No such file or directory (os error 2)\n"))

    def test_bytes_of_kept_fields(self):
        """A goal that comes back has a whole field, a byte for each of the map's 9 cells, and that is kept once no robot needs it."""
        name = os.path.join(self.folder.name, "figures")
        for goals, wanted in (((1, 2), 0), ((1, 2, 1), 9), ((1, 2, 1, 2, 3), 18)):
            with subprocess.Popen([PROGRAM, "live", "--robots", "0,8", "--metrics", name, self.map], stdin=subprocess.PIPE, stdout=subprocess.PIPE) as process:
                process.stdin.write("".join(f"post 0 go 0 {goal}\n" for goal in goals).encode() + b"tick 30\n")
                process.stdin.flush()
                seen, begun = {}, time.monotonic()
                while seen.get("fleet_arrivals_total") != str(len(goals)) and time.monotonic() - begun < 10:
                    time.sleep(0.05)
                    seen = self.figures(name)
                process.communicate()
            self.assertEqual(process.returncode, 0)
            self.assertEqual(seen["fleet_kept_field_bytes"], str(wanted), goals)

    def test_a_client_whose_output_fails(self):
        way = os.path.join(self.folder.name, "in0")
        os.mkfifo(way)
        words = ["--robots", "0,8", "--clients", "2", "--period", "5ms", "--client", f"{way},/dev/full", self.map]
        with subprocess.Popen([PROGRAM, "live", *words], stdin=subprocess.PIPE, stdout=subprocess.PIPE) as process:
            mine = os.open(way, os.O_RDWR | os.O_NONBLOCK)
            taken, last = 0, time.monotonic()
            while time.monotonic() - last < 1:
                try:
                    taken += os.write(mine, b"post 0 go 0 1\n" * 100)
                    last = time.monotonic()
                except BlockingIOError:
                    time.sleep(0.01)
                self.assertLess(taken, 1000000)
            process.stdin.write(b"post 1 go 1 7\n")
            process.stdin.flush()
            lines = [process.stdout.readline().decode() for _ in range(3)]
            process.stdin.close()
            lines += process.stdout.read().decode().splitlines()
            os.close(mine)
        self.assertEqual(process.returncode, 0)
        self.assertEqual(lines[:2], ["posted 1 1\n", "collected 1 1 verdict 1 accepted 1\n"])
        self.assertTrue(lines[2].startswith("collected 1 2 arrived 1 robot 1 cell 7 ") and lines[-1].startswith("ended "))

    def test_a_client_comes_again(self):
        names = [os.path.join(self.folder.name, way) for way in ("in", "out")]
        for name in names:
            os.mkfifo(name)
        process = subprocess.Popen(
            [PROGRAM, "live", "--robots", "0,8", "--period", "5ms", "--client", ",".join(names), self.map],
            stdin=subprocess.PIPE, stdout=subprocess.PIPE,
        )
        told = b""
        for cell in (1, 0):
            way, back = (os.open(name, os.O_RDWR) for name in names)
            os.write(way, f"@m post 0 go 0 {cell}\n".encode())
            while told.count(b" arrived ") < (1 if cell else 2):
                told += os.read(back, 4096)
            os.close(way), os.close(back)
        process.stdin.close()
        self.assertTrue(process.stdout.read().endswith(b"\n"))
        self.assertEqual(process.wait(), 0)
        process.stdout.close()
        self.assertEqual([line.split()[:3] for line in told.decode().splitlines() if line.startswith("@m")], [["@m", "posted", "0"]] * 2)


if __name__ == "__main__":
    unittest.main()

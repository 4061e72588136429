"""Tests of fleets in real time that a service manager keeps, of what is asked while a `tick N` is made, and of readers
that stall: FLEET names the built program.
"""

import json
import os
import pathlib
import re
import select
import shutil
import signal
import subprocess
import time
import unittest

from kept_chapters import PROGRAM, TOP, KeptChaptersTest

RUN = TOP / "tools" / "live" / "run"


def until(holds, seconds=20.0):
    """Waits until something holds; returns whether it does."""
    begun = time.monotonic()
    while not holds() and time.monotonic() - begun < seconds:
        time.sleep(0.01)
    return bool(holds())


def figures_in(name):
    """The figures of a file, by name and labels."""
    lines = pathlib.Path(name).read_text().splitlines()
    return dict(line.rsplit(" ", 1) for line in lines if not line.startswith("#"))


class ServiceTest(KeptChaptersTest):
    def words(self, *more):
        return ["live", "--robots", "0,8", "--period", "5ms", "--traces", self.traces, "--resume", *more, self.map]

    def start(self, *words, **ends):
        process = subprocess.Popen(words, **{"stdout": subprocess.PIPE, "stderr": subprocess.PIPE, **ends})
        self.addCleanup(lambda: [end.close() for end in (process.stdin, process.stdout, process.stderr) if end])
        self.addCleanup(process.wait)
        self.addCleanup(process.kill)
        return process

    def is_held(self):
        """Whether a fleet holds the folder. (To try its lock would keep a fleet out that begins.)"""
        lock = self.traces / "fleet.lock"
        if not lock.exists():
            return False
        held = re.findall(r" FLOCK .* [0-9a-f]+:[0-9a-f]+:(\d+) ", pathlib.Path("/proc/locks").read_text())
        return str(lock.stat().st_ino) in held

    def test_goes_on_without_a_first_conversation(self):
        figures = self.path / "figures"
        for ends in ({"stdin": subprocess.DEVNULL, "stdout": subprocess.DEVNULL}, {"stdin": subprocess.PIPE}):
            process = self.start(PROGRAM, *self.words("--service", "--metrics", figures), **ends)
            if process.stdin:
                process.stdin.write(b"look\n"), process.stdin.close(), process.stdout.close()
                process.stdout = None
            self.assertTrue(until(lambda: figures.exists() and "fleet_ticks_total" in figures.read_text()))
            begun = int(figures_in(figures)["fleet_ticks_total"])
            self.assertTrue(until(lambda: int(figures_in(figures)["fleet_ticks_total"]) > begun + 10))
            self.assertIsNone(process.poll())
            process.kill(), process.wait()
            figures.unlink()

    def test_ends_at_quit(self):
        said = subprocess.run([PROGRAM, *self.words("--service")], input=b"post 0 go 0 1\nquit\n", capture_output=True)
        self.assertEqual((said.returncode, said.stderr), (0, b"fleet: begins anew\n"))
        self.assertTrue(said.stdout.splitlines()[-1].startswith(b"ended "))
        self.assertEqual(self.chapters(), ["chapter-0.json"])

    def test_needs_a_period(self):
        said = self.run_program(["live", "--robots", "0", "--service", self.map], "tick\n")
        self.assertEqual(said, ("", "error: '--service' needs '--period <TIME>'\n", 2))

    def test_a_service_manager(self):
        for number in (signal.SIGTERM, signal.SIGINT, signal.SIGHUP):
            process = self.start(RUN, PROGRAM, *self.words("--service"), stdin=subprocess.DEVNULL)
            self.assertTrue(until(self.is_held))
            time.sleep(0.2)
            self.assertIsNone(process.poll())
            process.send_signal(number)
            output = process.stdout.read().decode()
            self.assertEqual(process.wait(), 0)
            self.assertRegex(output, r"^ended [1-9]\d*\n$")
        self.assertEqual(self.chapters(), ["chapter-0.json", "chapter-1.json", "chapter-2.json"])
        # Its status is the program's.
        process = self.start(RUN, PROGRAM, "live", "--robots", "4", "--service", "--period", "5ms", self.map, stdin=subprocess.DEVNULL)
        self.assertEqual(process.wait(), 5)

    def test_a_manager_that_is_killed(self):
        for number in (signal.SIGKILL, signal.SIGUSR1):
            for more in (["--service"], []):
                process = self.start(RUN, PROGRAM, *self.words(*more), stdin=subprocess.PIPE)
                count = len(self.chapters())
                self.assertTrue(until(self.is_held))
                process.send_signal(number)
                self.assertTrue(until(lambda: not self.is_held()), (number, more))
                self.assertEqual(len(self.chapters()), count + 1)
                process.stdin.close()

    def test_the_unit_files(self):
        """The unit's own line keeps a fleet, which its own health check and pruning find in order."""
        folder = TOP / "examples" / "service"
        unit = dict(line.split("=", 1) for line in (folder / "fleet.service").read_text().splitlines() if "=" in line and not line.startswith("#"))
        state, place = self.path / "state", self.path / "place"
        (state / "traces").mkdir(parents=True), place.mkdir()
        shutil.copy(self.map, place / "ring.map")
        programs = {"/usr/local/bin/fleet": PROGRAM, "/usr/local/lib/fleet/run": str(RUN), "/usr/local/lib/fleet/health": str(folder / "health"), "/usr/local/lib/fleet/prune": str(folder / "prune"),
                    "/var/lib/fleet": str(state), "/etc/fleet": str(place)}

        def command(line):
            for name, here in programs.items():
                line = line.replace(name, here)
            return line.split()

        process = self.start(*command(unit["ExecStart"]), stdin=subprocess.DEVNULL)
        figures = state / "figures.prom"
        self.assertTrue(until(lambda: figures.exists() and figures.stat().st_size > 0))
        health = next(line.split("=", 1)[1] for line in (folder / "fleet-health.service").read_text().splitlines() if line.startswith("ExecStart="))
        self.assertEqual(subprocess.run(command(health)).returncode, 0)
        process.send_signal(signal.SIGSTOP)
        os.utime(figures, (time.time() - 60,) * 2)
        self.assertEqual(subprocess.run(command(health), stderr=subprocess.DEVNULL).returncode, 1)
        process.send_signal(signal.SIGCONT)
        process.send_signal(signal.SIGTERM)
        self.assertEqual(process.wait(), 0)
        for number in range(len(os.listdir(state / "traces")) - 1, 300):
            (state / "traces" / f"chapter-{number}.json").write_text("{}")
        subprocess.run(command(unit["ExecStartPre"]), check=True)
        left = sorted(int(name[8:-5]) for name in os.listdir(state / "traces") if name.endswith(".json"))
        self.assertEqual(left, list(range(300 - len(left), 300)))
        self.assertLess(len(left), 300)
        self.assertEqual(set(unit["RestartPreventExitStatus"].split()), {"2", "4", "5", "6", "8"})

    # ---- while a tick is made

    def test_the_limit_of_waits_on_a_map_with_bridges(self):
        """Two robots on twelve floor cells: two times eleven ticks, where all errands have to go to roomy cells."""
        self.map.write_text("type octile\nheight 3\nwidth 7\nmap\n.......\n.@@.@@@\n...@@@@\n")
        for more, limit in (["--roomy"], "22"), ([], None):
            figures = self.path / f"figures{len(more)}"
            process = self.start(PROGRAM, "live", "--robots", "0,7", "--period", "5ms", "--metrics", figures, *more, self.map, stdin=subprocess.PIPE)
            self.assertTrue(until(lambda: figures.exists() and "fleet_ticks_total" in figures_in(figures)))
            self.assertEqual(figures_in(figures).get("fleet_wait_limit_ticks"), limit)
            process.stdin.close()
            self.assertEqual(process.wait(), 0)

    def many_robots(self):
        """The cells of 512 robots on a map of 64 by 64 cells, which is written."""
        self.map.write_text("type octile\nheight 64\nwidth 64\nmap\n" + ("." * 64 + "\n") * 64)
        return ",".join(str(4 * k) for k in range(512))

    def test_what_the_clock_asks_for_in_a_long_tick(self):
        figures = self.path / "figures"
        words = ["live", "--robots", self.many_robots(), "--traces", self.traces, "--keep-every", "50ms", "--metrics", figures, self.map]
        process = self.start(PROGRAM, *words, stdin=subprocess.PIPE)
        process.stdin.write(b"@t tick 1000000\n")
        process.stdin.flush()
        self.assertTrue(until(lambda: len(self.chapters()) >= 3))
        self.assertTrue(until(lambda: 0 < int(figures_in(figures).get("fleet_ticks_total", 0))))
        first = int(figures_in(figures)["fleet_ticks_total"])
        self.assertTrue(until(lambda: int(figures_in(figures)["fleet_ticks_total"]) > first))
        # None of this is told before the answer.
        self.assertEqual(select.select([process.stdout], [], [], 0)[0], [])
        process.stdin.write(b"quit\n")
        process.stdin.close()
        lines = process.stdout.read().decode().splitlines()
        self.assertEqual(process.wait(), 0)
        tick = int(lines[-1].split()[1])
        self.assertEqual([line.split(":")[0] for line in lines], [f"@t tick {tick}", f"ended {tick}"])
        entries = [len(json.loads((self.traces / name).read_text())["entries"]) for name in self.chapters() if name.endswith(".json")]
        self.assertEqual(sum(entries), tick)

    # ---- pipes

    def pipes(self, *names):
        for name in names:
            os.mkfifo(self.path / name)
        return [str(self.path / name) for name in names]

    def test_words_for_pipes(self):
        way, back = self.pipes("in0", "out0")
        file = self.path / "file"
        file.write_text("")
        (self.path / "other").symlink_to(way)
        missing = str(self.path / "missing")
        wrong, twice = "error: invalid value for '--client <IN,OUT>'\n", "error: a pipe is named twice for '--client <IN,OUT>'\n"
        for word, complaint, status in (
            (way, wrong, 2), (f"{way},", wrong, 2), (f",{back}", wrong, 2), (f"{way},{way}", twice, 2), (f"{way},{self.path}/./in0", twice, 2), (f"{way},{self.path}/other", twice, 2),
            (f"{way},{file}", f"fleet: file {file} cannot be opened: it is no pipe\n", 3),
            (f"{missing},{back}", f"fleet: file {missing} cannot be opened: No such file or directory (os error 2)\n", 3),
        ):
            with self.subTest(word):
                self.assertEqual(self.run_program(["live", "--robots", "0", "--client", word, self.map], ""), ("", complaint, status))
        # A wrong word comes before a file that is missing.
        self.assertEqual(self.run_program(["live", "--robots", "0", "--client", way, missing], "")[1:], (wrong, 2))

    def stalled(self, pipe, line):
        """How many bytes of such lines are taken before nothing is for a second."""
        os.set_blocking(pipe, False)
        taken, last = 0, time.monotonic()
        while time.monotonic() - last < 1 and taken < 4000000:
            try:
                taken += os.write(pipe, line * 100)
                last = time.monotonic()
            except BlockingIOError:
                time.sleep(0.01)
        return taken

    def test_who_does_not_read_is_not_read(self):
        way, back = self.pipes("in0", "out0")
        process = self.start(PROGRAM, "live", "--robots", "0,8", "--clients", "2", "--client", f"{way},{back}", self.map, stdin=subprocess.PIPE)
        mine = os.open(way, os.O_RDWR)
        # Two pipes of 65,536 bytes, the lines that wait, and the answers that wait: nothing more.
        self.assertLess(self.stalled(mine, b"look\n"), 1000000)
        self.assertLess(self.stalled(process.stdin.fileno(), b"look\n"), 1000000)
        os.close(mine)

    def test_what_had_no_room_follows_by_itself(self):
        way, back = self.pipes("in0", "out0")
        head = self.head("robots 0 8\nclients 2\nqueue 4096\nmailbox 16384\noutlet 16384\nlane 8192\n")
        process = self.start(PROGRAM, "live", "--client", f"{way},{back}", self.map, *head, stdin=subprocess.PIPE)
        errands = 3000
        mine, told = os.open(way, os.O_RDWR), os.open(back, os.O_RDWR)
        text, asked = b"", b"".join(b"post 0 go 0 %d\n" % (1 - k % 2) for k in range(errands))
        os.set_blocking(mine, False)
        while text.count(b" accepted ") < errands:
            if asked and select.select([], [mine], [], 0)[1]:
                asked = asked[os.write(mine, asked[:4096]) :]
            if select.select([told], [], [], 0.01)[0]:
                text += os.read(told, 65536)
        # All of them are done before anything is read: far more than has room.
        process.stdin.write(b"tick 4000\n")
        process.stdin.flush()
        self.assertTrue(process.stdout.readline().startswith(b"tick 4000: "))
        text = b""
        while text.count(b" arrived ") < errands and select.select([told], [], [], 10)[0]:
            text += os.read(told, 65536)
        self.assertEqual(text.count(b" arrived "), errands)
        process.stdin.close()
        os.close(mine), os.close(told)

    # ---- streams

    def test_which_stream_failed(self):
        for word, head in (("live", ["--robots", "0,8"]), ("talk", [])):
            with open("/dev/full", "wb") as full:
                done = subprocess.run([PROGRAM, word, *head, self.map], input=b"robots 0\ntick\n", stdout=full, stderr=subprocess.PIPE)
            self.assertEqual((done.returncode, done.stderr), (3, b"fleet: file standard output cannot be written: No space left on device (os error 28)\n"))
            folder = os.open(self.path, os.O_RDONLY)
            done = subprocess.run([PROGRAM, word, *head, self.map], stdin=folder, capture_output=True)
            os.close(folder)
            self.assertEqual((done.returncode, done.stderr), (3, b"fleet: file standard input cannot be read: Is a directory (os error 21)\n"))

    def test_streams_that_do_not_wait(self):
        """A stream that cannot go on yet is waited for."""
        for word, head, tick in (("live", ["--robots", "0,8"], b"tick 1: 0 8\n"), ("talk", [], b"tick 1: 0 8\n")):
            process = self.start(PROGRAM, word, *head, self.map, stdin=subprocess.PIPE)
            given = os.open(f"/proc/{process.pid}/fd/0", os.O_RDONLY | os.O_NONBLOCK)
            os.set_blocking(process.stdin.fileno(), True)
            os.set_blocking(given, False)
            os.close(given)
            # The descriptor that the program has is made so by its own flags.
            time.sleep(0.1)
            process.stdin.write(b"robots 0 8\n" * (word == "talk") + b"tick\n")
            process.stdin.close()
            self.assertEqual(process.stdout.readline(), tick)
            self.assertEqual(process.wait(), 0)

    def test_a_shut_at_the_limit(self):
        (self.path / "head").write_text("robots 0 8\nchapter 1\nchapters 1\n")
        said = self.run_program(["live", self.map, self.path / "head"], "shut 0\nshut 1\n")
        self.assertEqual(said, ("shut 0 farewell 0\nshut-refused 1 3 chapter-full\nended 0\n", "fleet: limit\n", 8))

    # ---- figures

    def test_figures_are_written_beside_and_checked(self):
        figures = self.path / "figures"
        words = ["live", "--robots", "0,8", "--period", "5ms", "--traces", self.traces, "--keep-every", "100ms", "--metrics", figures, self.map]
        begun = time.time()
        process = self.start(PROGRAM, *words, stdin=subprocess.PIPE)
        self.assertTrue(until(lambda: figures.exists() and "fleet_ticks_total" in figures.read_text()))
        nodes = set()
        self.assertTrue(until(lambda: nodes.add(figures.stat().st_ino) or len(nodes) > 1))
        process.send_signal(signal.SIGSTOP)
        time.sleep(0.5)
        process.send_signal(signal.SIGCONT)
        before = int(figures_in(figures)["fleet_turns_left_out_total"])
        self.assertTrue(until(lambda: int(figures_in(figures)["fleet_turns_left_out_total"]) > before + 50))
        seen = figures_in(figures)
        self.assertEqual(float(seen["fleet_period_seconds"]), 0.005)
        self.assertEqual(seen['fleet_build_info{version="0.1.0"}'], "1")
        self.assertTrue(begun - 1 <= float(seen["fleet_start_time_seconds"]) <= time.time())
        self.assertTrue(begun - 1 <= float(seen["fleet_chapter_kept_time_seconds"]) <= time.time())
        for name in ("lateness", "duration"):
            buckets = [(float(key.split('"')[1].replace("+Inf", "inf")), int(count)) for key, count in seen.items() if key.startswith(f"fleet_turn_{name}_seconds_bucket")]
            self.assertEqual(len(buckets), 17)
            self.assertEqual(buckets, sorted(buckets))
            self.assertEqual([count for _, count in buckets], sorted(count for _, count in buckets))
            self.assertEqual(buckets[-1], (float("inf"), int(seen["fleet_ticks_total"])))
            self.assertEqual(seen[f"fleet_turn_{name}_seconds_count"], seen["fleet_ticks_total"])
        # One turn was late by the half second.
        late = {float(key.split('"')[1].replace("+Inf", "inf")): int(count) for key, count in seen.items() if key.startswith("fleet_turn_lateness_seconds_bucket")}
        self.assertGreater(late[float("inf")], late[0.25])
        self.assertTrue(0.4 < float(seen["fleet_turn_lateness_seconds_sum"]) < 30)
        checker = shutil.which("promtool")
        self.assertIsNotNone(checker, "this test needs promtool, of Debian's package prometheus")
        done = subprocess.run([checker, "check", "metrics"], input=figures.read_bytes(), capture_output=True)
        self.assertEqual((done.returncode, done.stdout, done.stderr), (0, b"", b""))
        process.stdin.close()

    def test_figures_that_cannot_be_written_for_a_while(self):
        folder = self.path / "there"
        folder.mkdir()
        figures = folder / "figures"
        process = self.start(PROGRAM, "live", "--robots", "0,8", "--period", "5ms", "--metrics", figures, self.map, stdin=subprocess.PIPE)
        self.assertTrue(until(figures.exists))
        folder.rename(self.path / "away")
        self.assertEqual(process.stderr.readline().decode(), f"fleet: file {figures} cannot be written: No such file or directory (os error 2)\n")
        (self.path / "away").rename(folder)
        self.assertEqual(process.stderr.readline().decode(), f"fleet: file {figures} is written again\n")
        process.stdin.close()

    # ---- chapters by size

    def test_chapters_by_size(self):
        robots = self.many_robots()
        words = ["live", "--robots", robots, "--traces", self.traces, "--chapter-bytes", "1048576", self.map]
        said = self.run_program(words, "tick 1500\nlook\n")
        self.assertEqual(said[1:], ("", 0))
        sizes = [(self.traces / name).stat().st_size for name in self.chapters()]
        self.assertGreater(len(sizes), 3)
        for size in sizes[:-1]:
            self.assertTrue(700000 < size <= 1048576 + 4096, sizes)
        for word in ("1048575", "1073741825", "64MiB", ""):
            said = self.run_program(["live", "--robots", "0", "--chapter-bytes", word, self.map], "")
            self.assertEqual(said, ("", "error: invalid value for '--chapter-bytes <N>'\n", 2))

    def test_chapters_of_a_conversation_by_size(self):
        robots = self.many_robots().replace(",", " ")
        words = ["talk", "--roll", "--chapter-bytes", "1048576", "--traces", self.traces, self.map]
        said = self.run_program(words, f"robots {robots}\ntick 1500\n")
        self.assertEqual(said[1:], ("", 0))
        sizes = [(self.traces / name).stat().st_size for name in self.chapters()]
        self.assertGreater(len(sizes), 3)
        for size in sizes[:-1]:
            # a cell of two to four digits and a comma is counted as eight bytes
            self.assertTrue(300000 < size <= 1048576, sizes)
        told = [line for line in said[0].splitlines() if line.startswith("chapter ")]
        self.assertEqual(len(told), len(sizes) - 1)
        for word in ("1048575", "1073741825", "64MiB", ""):
            said = self.run_program(["talk", "--roll", "--chapter-bytes", word, self.map], "robots 0\n")
            self.assertEqual(said, ("", "error: invalid value for '--chapter-bytes <N>'\n", 2))
        said = self.run_program(["talk", "--chapter-bytes", "1048576", self.map], "robots 0\n")
        self.assertEqual(said, ("", "error: '--chapter-bytes' needs '--roll'\n", 2))


if __name__ == "__main__":
    unittest.main()

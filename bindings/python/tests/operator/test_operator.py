"""Tests of what an operator of `fleet live` meets, against a built program: FLEET names it."""

import os
import select
import subprocess
import tempfile
import time
import unittest

PROGRAM = os.environ.get("FLEET", "fleet")

RING = "type octile\nheight 3\nwidth 3\nmap\n...\n.@.\n...\n"


class OperatorTest(unittest.TestCase):
    def setUp(self):
        self.folder = tempfile.TemporaryDirectory()
        self.addCleanup(self.folder.cleanup)
        self.map = self.path("site.map")
        with open(self.map, "w") as file:
            file.write(RING)

    def path(self, name):
        return os.path.join(self.folder.name, name)

    def pipes(self):
        """The pipes of client 0, made anew."""
        names = [self.path("in0"), self.path("out0")]
        for name in names:
            os.mkfifo(name)
        return names

    def live(self, *words):
        process = subprocess.Popen(
            [PROGRAM, "live", *words, self.map], stdin=subprocess.PIPE, stdout=subprocess.PIPE, stderr=subprocess.PIPE,
        )
        self.addCleanup(process.wait)
        for pipe in (process.stdin, process.stdout, process.stderr):
            self.addCleanup(pipe.close)
        return process

    def ask(self, process, line):
        """The first line that the first conversation answers."""
        process.stdin.write(line.encode() + b"\n")
        process.stdin.flush()
        return process.stdout.readline().decode().rstrip("\n")

    def lines_of(self, back, last):
        """What comes over a pipe, up to a line that ends so."""
        told, until = b"", time.monotonic() + 10
        while not told.endswith(last.encode() + b"\n"):
            self.assertLess(time.monotonic(), until, told)
            try:
                told += os.read(back, 4096)
            except BlockingIOError:
                time.sleep(0.01)
        return told.decode().splitlines()

    def test_a_client_that_comes_again_learns_what_is_left(self):
        names = self.pipes()
        process = self.live("--robots", "0,8", "--clients", "2", "--client", ",".join(names))
        way, back = (os.open(name, os.O_RDWR | os.O_NONBLOCK) for name in names)
        os.write(way, b"post 0 go 0 2\npost 0 go 1 7\npost 0 go 0 5\n@last post 0 withdraw 3\n")
        self.lines_of(back, "verdict 4 withdrawn")
        self.assertTrue(self.ask(process, "tick").startswith("tick 1: 1 7"))
        # It is killed in the middle of a line, and half of what it was told was read.
        os.write(way, b"post 0 go 1 ")
        select.select([back], [], [], 10)
        os.read(back, 5)
        os.close(way), os.close(back)
        way, back = (os.open(name, os.O_RDWR | os.O_NONBLOCK) for name in names)
        os.write(way, b"!\n@again open 0\n@again open 1\n@again open 0 0\n")
        lines = self.lines_of(back, "@again bad-line 8")
        mine = [line for line in lines if line.startswith("@again")]
        self.assertEqual(mine, ["@again open 0 number 1 robot 0 cell 2 place 1", "@again open 0 end 1", "@again no-client 1", "@again bad-line 8"])
        self.assertEqual(lines[lines.index(mine[0]):], mine)
        # The first conversation speaks for client 1 alone.
        self.assertEqual(self.ask(process, "open 0"), "no-client 0")
        self.assertEqual(self.ask(process, "@m open 1"), "@m open 1 end 0")
        process.stdin.close()
        self.assertEqual(process.wait(), 0)
        os.close(way), os.close(back)

    def test_open_errands_under_a_period(self):
        process = self.live("--robots", "0,8", "--period", "3600s")
        process.stdin.write(b"post 0 go 0 2\npost 0 go 0 5\nopen 0\n")
        process.stdin.flush()
        lines = [process.stdout.readline().decode().rstrip("\n") for _ in range(7)]
        process.stdin.close()
        self.assertEqual(process.wait(), 0)
        mine = [line for line in lines if line.startswith("open ")]
        self.assertEqual(mine, ["open 0 number 1 robot 0 cell 2 place 1", "open 0 number 2 robot 0 cell 5 place 2", "open 0 end 2"])
        self.assertEqual(lines[lines.index(mine[0]):][:3], mine)

    def test_a_pipe_that_was_removed_gets_its_name_back(self):
        names = self.pipes()
        process = self.live("--robots", "0,8", "--clients", "2", "--period", "5ms", "--client", ",".join(names))
        self.assertTrue(self.ask(process, "look").startswith("look tick "))
        os.remove(names[0])
        # One that is made anew is another pipe. The fleet goes on.
        os.mkfifo(names[0])
        self.assertEqual(self.ask(process, "post 1 go 1 7"), "posted 1 1")
        # The open pipe gets its name back, and is heard.
        folder = f"/proc/{process.pid}/fd"
        lost = [name for name in os.listdir(folder) if os.readlink(os.path.join(folder, name)) == f"{names[0]} (deleted)"]
        self.assertEqual(len(lost), 1)
        os.remove(names[0])
        os.symlink(os.path.join(folder, lost[0]), names[0])
        way, back = (os.open(name, os.O_RDWR | os.O_NONBLOCK) for name in names)
        os.write(way, b"@back open 0\n")
        self.assertEqual(self.lines_of(back, "@back open 0 end 0"), ["@back open 0 end 0"])
        process.stdin.close()
        self.assertEqual(process.wait(), 0)
        self.assertEqual(process.stderr.read(), b"")
        os.close(way), os.close(back)

    def test_how_long_queues_are(self):
        name = self.path("figures")
        process = self.live("--robots", "0,8", "--metrics", name)
        for number, line in enumerate(("post 0 go 0 2", "post 0 go 0 5", "post 0 go 1 7", "post 0 go 0 1"), 1):
            self.assertEqual(self.ask(process, line), f"posted 0 {number}")
            self.assertEqual(process.stdout.readline().decode(), f"collected 0 {number} verdict {number} accepted {number}\n")
        wanted = {"fleet_queued_errands": "4", "fleet_queue_longest": "3", "fleet_errands_open": "4"}
        seen, begun = {}, time.monotonic()
        while {key: seen.get(key) for key in wanted} != wanted and time.monotonic() - begun < 10:
            time.sleep(0.1)
            with open(name) as file:
                seen = dict(line.rsplit(" ", 1) for line in file.read().splitlines() if not line.startswith("#"))
        process.stdin.close()
        self.assertEqual(process.wait(), 0)
        self.assertEqual({key: seen.get(key) for key in wanted}, wanted)


if __name__ == "__main__":
    unittest.main()

"""Tests of the folder of chapters that the built program keeps, before a fleet begins and while it does: FLEET names
the program. What a folder has to have is written down here by hand.
"""

import errno
import fcntl
import json
import os
import resource
import shutil
import subprocess
import tempfile
import time
import unittest

from kept_chapters import PROGRAM, KeptChaptersTest


class FolderTest(KeptChaptersTest):
    def on(self, lines, *words):
        """What the program says to lines: output, complaint, status."""
        return self.run_program(["live", "--traces", self.traces, "--resume", "--robots", "0,8", *words, self.map], lines)

    def test_how_a_fleet_starts(self):
        self.assertEqual(self.on("tick 5\n")[1:], ("", 0))
        self.assertEqual(self.start, "fleet: begins anew\n")
        self.assertEqual(self.on("tick 3\n")[1:], ("", 0))
        self.assertEqual(self.start, "fleet: goes on from chapter 0 at tick 5\n")
        self.assertEqual(self.run_program(["talk", "--traces", self.traces, "--resume", self.map], "tick\n")[1:], ("", 0))
        self.assertEqual(self.start, "fleet: goes on from chapter 1 at tick 8\n")
        # Who does not ask to go on is told nothing, nor is one whose head names other robots.
        self.assertEqual(self.run_program(["live", "--robots", "0", self.map], "tick\n")[1:], ("", 0))
        self.assertIsNone(self.start)
        self.refused(f"{self.traces}/chapter-2.json: the header lines name another number of clients", 6, "--clients", "2")

    def test_to_go_on_alone(self):
        for word, head in (("live", ["--robots", "0,8"]), ("talk", [])):
            words = [word, "--traces", self.traces, "--resume-only", *head, self.map]
            self.assertEqual(self.run_program(words, "tick\n"), ("", f"fleet: file {self.traces} has no chapter\n", 3))
            self.assertEqual(self.run_program([word, "--resume-only", *head, self.map], ""), ("", "error: '--resume-only' needs '--traces <DIR>'\n", 2))
        self.assertEqual(self.chapters(), [])
        self.on("tick 5\n")
        self.assertEqual(self.on("look\n", "--resume-only")[1:], ("", 0))
        self.assertEqual(self.start, "fleet: goes on from chapter 0 at tick 5\n")

    def test_a_hundred_thousand_chapters(self):
        self.on("tick\n")
        first = (self.traces / "chapter-0.json").read_text()
        count = 100000
        for number in range(1, count - 1):
            os.close(os.open(self.traces / f"chapter-{number}.json", os.O_CREAT | os.O_WRONLY))
        (self.traces / f"chapter-{count - 1}.json").write_text(first.replace('"chapter":0', f'"chapter":{count - 1}'))
        before = resource.getrusage(resource.RUSAGE_CHILDREN)
        self.assertEqual(self.on("look\n")[1:], ("", 0))
        after = resource.getrusage(resource.RUSAGE_CHILDREN)
        self.assertEqual(self.start, f"fleet: goes on from chapter {count - 1} at tick 1\n")
        self.assertLess(after.ru_utime + after.ru_stime - before.ru_utime - before.ru_stime, 2)
        # The first ones may be elsewhere; of two that are missing the last is named.
        for number in (0, 1, 500, 70000):
            (self.traces / f"chapter-{number}.json").unlink()
        self.refused(f"{self.traces}/chapter-70000.json: it is missing, and a later chapter is there", 3)

    def test_the_lock_stays(self):
        self.on("tick\n")
        lock = self.traces / "fleet.lock"
        self.assertTrue(lock.exists())
        # Whoever has the file open that a fleet locks keeps the fleet out, before and after one ended.
        with open(lock) as held:
            self.assertEqual(self.on("tick\n")[2], 0)
            fcntl.flock(held, fcntl.LOCK_EX)
            self.assertEqual(self.on("tick\n"), ("", f"fleet: file {self.traces} is in use by another fleet\n", 3))
        self.assertEqual(self.on("tick\n")[2], 0)
        lock.unlink()
        lock.symlink_to(self.path / "elsewhere")
        self.assertEqual(self.on("tick\n"), ("", f"fleet: file {self.traces} cannot be written: fleet.lock is no file\n", 3))

    def test_a_lock_that_was_removed(self):
        """A fleet that opened the lock before it was removed does not keep the folder by it."""
        strace = shutil.which("strace")
        self.assertIsNotNone(strace, "this test needs strace")
        words = ["live", "--robots", "0,8", "--traces", self.traces, "--resume", self.map]
        # flock waits for a second, in which the file is removed and made anew.
        slow = [strace, "-f", "-o", self.path / "log", "-e", "trace=flock,openat", "-e", "inject=flock:delay_enter=1000000:when=1", PROGRAM, *words]
        with subprocess.Popen(slow, stdin=subprocess.PIPE, stdout=subprocess.PIPE, stderr=subprocess.DEVNULL) as process:
            lock = self.traces / "fleet.lock"
            begun = time.monotonic()
            while not lock.exists() and time.monotonic() - begun < 10:
                time.sleep(0.01)
            lock.unlink()
            lock.write_text("")
            process.communicate(b"look\n")
        self.assertEqual(process.returncode, 0)
        opened = [line for line in (self.path / "log").read_text().splitlines() if "fleet.lock" in line]
        self.assertEqual(len(opened), 2, opened)

    def test_no_chapter_is_written_over(self):
        folder = self.traces
        words = ["live", "--robots", "0,8", "--traces", folder, self.map]
        with subprocess.Popen([PROGRAM, *words], stdin=subprocess.PIPE, stdout=subprocess.PIPE, stderr=subprocess.PIPE) as process:
            process.stdin.write(b"look\n")
            process.stdin.flush()
            process.stdout.readline()
            (folder / "chapter-0.json").write_text("mine")
            output, complaint = process.communicate(b"tick\n")
        self.assertEqual(process.returncode, 3)
        self.assertEqual((folder / "chapter-0.json").read_text(), "mine")
        self.assertEqual(complaint.decode(), f"fleet: file {folder} cannot be written: File exists (os error {errno.EEXIST})\n")
        self.assertEqual(self.chapters(), ["chapter-0.json"])

    def test_what_is_no_chapter(self):
        self.on("tick\n")
        place = self.traces / "chapter-1.json"

        def pipe():
            os.mkfifo(place)

        def link():
            place.symlink_to(self.traces / "chapter-0.json")

        def holes():
            with open(place, "wb") as file:
                file.truncate(1 << 29)

        def half():
            with open(place, "wb") as file:
                file.write((self.traces / "chapter-0.json").read_bytes())
                file.truncate(1 << 29)

        def large():
            with open(place, "wb") as file:
                file.write(b"{")
                file.seek((1 << 30) + 1)
                file.write(b"}")

        for make, why in (
            (pipe, "it is a pipe, a link or a folder"), (link, "it is a pipe, a link or a folder"), (place.mkdir, "it is a pipe, a link or a folder"),
            (holes, "its first or last byte is zero"), (half, "its first or last byte is zero"), (large, "it has more than 1073741824 bytes"),
        ):
            make()
            begun = time.monotonic()
            with self.subTest(make):
                self.assertEqual(self.on("look\n"), ("", f"fleet: file {place}: {why}\n", 3))
                self.assertLess(time.monotonic() - begun, 5)
            place.rmdir() if place.is_dir() and not place.is_symlink() else place.unlink()
        # A pipe in the place of the part is not opened, and a name that is no text is no chapter's.
        os.mkfifo(self.traces / "chapter-1.part")
        os.close(os.open(os.fsencode(self.traces) + b"/chapter-\xff.json", os.O_CREAT | os.O_WRONLY))
        self.assertEqual(self.on("look\n")[1:], ("", 0))
        self.assertEqual(self.start, "fleet: goes on from chapter 0 at tick 1\n")

    def test_down_to_the_disk(self):
        """A chapter is synced, then gets its name, and then the folder is synced."""
        strace = shutil.which("strace")
        self.assertIsNotNone(strace, "this test needs strace")
        log = self.path / "log"
        calls = "trace=openat,fsync,fdatasync,link,linkat,rename,renameat,renameat2,unlink,unlinkat"
        words = ["live", "--robots", "0,8", "--traces", self.traces, self.map]
        subprocess.run([strace, "-f", "-y", "-o", log, "-e", calls, PROGRAM, *words], input=b"tick\n", stdout=subprocess.DEVNULL, check=True)
        done = [line.split(None, 1)[1] for line in log.read_text().splitlines() if str(self.traces) in line]
        done = done[[at for at, line in enumerate(done) if "chapter-0.part" in line and "O_CREAT" in line][0] :]
        synced = [at for at, line in enumerate(done) if line.startswith("fsync(") and "chapter-0.part" in line]
        named = [at for at, line in enumerate(done) if line.startswith("link") and "chapter-0.json" in line]
        listed = [at for at, line in enumerate(done) if line.startswith("fsync(") and f"<{self.traces}>" in line]
        self.assertEqual((len(synced), len(named), len(listed)), (1, 1, 1), done)
        self.assertTrue(synced < named < listed, done)
        self.assertEqual([line for line in done if line.startswith("rename")], [])

    def full_disk(self):
        """A small disk of its own, or None where none can be mounted."""
        disk = self.path / "disk"
        disk.mkdir()
        if subprocess.run(["mount", "-t", "tmpfs", "-o", "size=64k", "tmpfs", disk], capture_output=True).returncode:
            return None
        self.addCleanup(subprocess.run, ["umount", "-l", disk])
        return disk

    def test_a_full_disk(self):
        disk = self.full_disk()
        if disk is None:
            self.skipTest("no disk can be mounted")
        words = ["live", "--robots", "0,8", "--traces", disk, self.map]
        with open(disk / "ballast", "wb", buffering=0) as file:
            with self.assertRaises(OSError):
                while True:
                    file.write(b"." * 1024)
        output, complaint, status = self.run_program(words, "look\n")
        self.assertEqual((output, complaint, status), ("", f"fleet: file {disk} cannot be written: No space left on device (os error 28)\n", 3))
        (disk / "ballast").unlink()
        self.assertEqual(self.run_program(words, "look\n")[1:], ("", 0))

    def test_a_disk_that_is_full_for_a_while(self):
        """Each chapter is kept, in order; which file failed and why is said, and when it works again."""
        disk = self.full_disk()
        if disk is None:
            self.skipTest("no disk can be mounted")
        words = [PROGRAM, "live", "--robots", "0,8", "--traces", disk, "--period", "5ms", "--keep-every", "20ms", self.map]
        with subprocess.Popen(words, stdin=subprocess.PIPE, stdout=subprocess.PIPE, stderr=subprocess.PIPE, bufsize=0) as process:
            line = process.stderr.readline().decode()
            self.assertRegex(line, rf"^fleet: file {disk}/chapter-\d+.json cannot be written: No space left on device \(os error 28\)\n$")
            # Far longer than sixteen times TIME: no chapter is handed out while one waits.
            time.sleep(1.5)
            self.assertIsNone(process.poll())
            subprocess.run(["mount", "-o", "remount,size=4m", disk], check=True)
            while "is written" not in line:
                line = process.stderr.readline().decode()
            self.assertRegex(line, r"^fleet: file chapter-\d+.json is written, and those after it\n$")
            time.sleep(0.2)
            process.stdin.close()
            process.stdout.read(), process.stderr.read()
        self.assertEqual(process.returncode, 0)
        names = [name for name in os.listdir(disk) if name.endswith(".json")]
        ticks = 0
        for number in range(len(names)):
            chapter = json.loads((disk / f"chapter-{number}.json").read_text())
            self.assertEqual((chapter["chapter"], chapter["opening"]["tick"]), (number, ticks))
            ticks += len([entry for entry in chapter["entries"] if entry[0] == "tick"])


if __name__ == "__main__":
    unittest.main()

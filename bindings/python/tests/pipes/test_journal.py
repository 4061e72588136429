"""Tests of the journal that the built program keeps: what was told stands after a kill. FLEET names the program. What a journal has to have is written
down here by hand.
"""

import os
import resource
import shutil
import signal
import subprocess
import unittest

from kept_chapters import OPEN, PROGRAM, KeptChaptersTest

HEAD = (
    '{"chapter":0,"opening":{"clients":[[0,0,0,false]],"life":1099511627776,"queue":16,'
    '"robots":[[0,false,null,[],[0,0],[0,0]],[8,false,null,[],[0,0],[0,0]]],"tick":0},"version":2}\n'
)
TAKES = '["take",0,["go",0,1],["accepted",1]]\n["take",0,["go",1,4],["refused",5]]\n'
TICK = '["tick",[1,8],[[0,0,1,0]],[]]\n'
ASKED = "post 0 go 0 1\npost 0 go 1 4\ntick\n"
TOLD = [
    "collected 0 1 verdict 1 accepted 1",
    "collected 0 2 verdict 2 refused 5 blocked",
    "collected 0 3 arrived 1 robot 0 cell 1 tick 1 stamp 0",
]
LAST = "chapter-0.journal"


class JournalTest(KeptChaptersTest):
    def words(self, *words, resume=True):
        start = ["--resume"] if resume else []
        return ["live", "--traces", self.traces, "--journal", *start, "--robots", "0,8", *words, self.map]

    def on(self, lines, *words, resume=True):
        return self.run_program(self.words(*words, resume=resume), lines)

    def killed(self, lines, answers, *words):
        """The first lines that a fleet answered, before it was killed."""
        process = subprocess.Popen([PROGRAM, *self.words(*words)], stdin=subprocess.PIPE, stdout=subprocess.PIPE, stderr=subprocess.DEVNULL)
        process.stdin.write(lines.encode())
        process.stdin.flush()
        said = [process.stdout.readline().decode().rstrip("\n") for _ in range(answers)]
        process.send_signal(signal.SIGKILL)
        process.wait()
        process.stdin.close()
        process.stdout.close()
        return said

    def journal(self, text, name=LAST):
        (self.traces / name).write_bytes(text if isinstance(text, bytes) else text.encode())

    def refused(self, said, status):
        self.assertEqual(self.on("look\n"), ("", f"fleet: file {self.traces}/{said}\n", status))

    def test_what_a_journal_has(self):
        self.assertEqual(self.killed(ASKED, 6), ["posted 0 1", TOLD[0], "posted 0 2", TOLD[1], TOLD[2], "tick 1: 1 8"])
        self.assertEqual((self.traces / LAST).read_text(), HEAD + TAKES + TICK)
        # The next one has its name already, and nothing else.
        self.assertEqual(self.chapters(), [LAST, "chapter-1.journal"])
        self.assertEqual((self.traces / "chapter-1.journal").read_text(), "")
        self.assertEqual(self.on("look\n"), ("look tick 1 chapter 1 entries 0 idle within 0 at 1 8\nended 1\n", "", 0))
        self.assertEqual(self.start, "fleet: goes on from chapter 0 at tick 1\n")
        self.assertEqual(self.chapters(), ["chapter-0.json", "chapter-1.json"])
        chapter = (self.traces / "chapter-0.json").read_text()
        self.assertIn('"entries":[' + (TAKES + TICK).replace("\n", ",")[:-1] + "]", chapter)

    def test_a_fleet_that_ends_leaves_none(self):
        self.assertEqual(self.on(ASKED + "chapter\ntick\nchapter\nchapter\ntick 2\n")[1:], ("", 0))
        self.assertEqual(self.chapters(), ["chapter-0.json", "chapter-1.json", "chapter-2.json", "chapter-3.json"])
        # Nothing was done, and no journal was begun.
        self.assertEqual(self.on("look\n")[1:], ("", 0))
        self.assertEqual(self.chapters()[-1], "chapter-4.json")

    def test_talk_goes_on(self):
        self.killed(ASKED, 6)
        said = self.run_program(["talk", "--traces", self.traces, "--resume", self.map], "look\n")
        self.assertEqual(said, ("look tick 1 chapter 1 entries 0 idle within 0 at 1 8\n", "", 0))
        self.assertEqual(self.chapters(), ["chapter-0.json", "chapter-1.json"])

    def test_a_session(self):
        asked = "@a session 0\n@b since 0 0\n@c since 0 2\n@d since 0 3\n"
        told = [
            "@a session 0 orders 2 notices 3 told from 1 closed false",
            *(f"@b {line}" for line in TOLD), "@b since 0 end 3",
            f"@c {TOLD[2]}", "@c since 0 end 1",
            "@d since 0 end 0",
        ]
        self.assertEqual(self.killed(ASKED + asked, 14)[6:], told)
        self.assertEqual(self.on(asked)[0].splitlines()[:-1], told)
        # A client that is closed, one that is not there, and what is no line.
        said = self.on("post 0 close\nsession 0\nsession 1\nsince 1 0\nsession\nsince 0\nsession 0 0\nsince 0 x\n", "--recall", "2")[0].splitlines()
        self.assertEqual(said[2:], [
            "session 0 orders 3 notices 4 told from 3 closed true", "no-client 1", "no-client 1",
            "bad-line 5", "bad-line 6", "bad-line 7", "bad-line 8", "ended 1",
        ])
        said = self.on("session 0\nsince 0 2\n", "--recall", "0")[0].splitlines()
        self.assertEqual(said, ["session 0 orders 3 notices 4 told from 5 closed true", "since 0 end 0", "ended 1"])

    def test_notices_of_several_chapters(self):
        self.killed("post 0 go 0 1\nchapter\npost 0 go 1 4\nchapter\n", 6)
        self.killed("tick\n", 2)
        self.assertEqual(self.on("since 0 0\n")[0].splitlines()[:3], TOLD)
        self.assertEqual(self.on("since 0 0\n", "--recall", "2")[0].splitlines()[:2], TOLD[1:])

    def test_many_notices(self):
        """An answer is no longer than half of what may wait for a reader, so that it never waits itself."""
        asked = [400, 0, 0, 300, 999, 1000]
        lines = "post 0 withdraw 9\n" * 1000 + "".join(f"@a since 0 {seq}\n" for seq in asked)
        said = subprocess.run([PROGRAM, *self.words()], input=lines.encode(), capture_output=True, timeout=120)
        self.assertEqual(said.returncode, 0)
        told, answers = said.stdout.decode().splitlines(), [[]]
        first = [line for line in told if line.startswith("collected ")]
        for line in told:
            if line.startswith("@a "):
                answers[-1].append(line[3:])
                if line.startswith("@a since"):
                    answers.append([])
        self.assertEqual(len(answers), len(asked) + 1)
        for seq, answer in zip(asked, answers):
            count = len(answer) - 1
            self.assertEqual(answer, first[seq:seq + count] + [f"since 0 end {count}"])
            self.assertLess(sum(len(line) + 4 for line in answer), 32768)
            self.assertTrue(count > 200 or count == 1000 - seq, (seq, count))

    def test_a_line_that_was_cut(self):
        cut = "fleet: file {}/{}: {} bytes after line {} were not written whole, and tell nothing\n"
        for count, tail in enumerate((b'["tick",[2', b"[", b'["tick",[2\0\0\0]]\n["tick"]\n', b"\0" * 600)):
            for name in self.chapters():
                (self.traces / name).unlink()
            self.journal((HEAD + TAKES + TICK).encode() + tail)
            said, complaint, status = self.on("since 0 0\n")
            self.assertEqual((said.splitlines()[:3], status), (TOLD, 0))
            self.assertEqual(self.start + complaint, cut.format(self.traces, LAST, len(tail), 4) + "fleet: goes on from chapter 0 at tick 1\n", count)

    def run_program(self, words, lines):
        """The line of a cut comes before that of the start."""
        said = subprocess.run([PROGRAM, *words], input=lines.encode(), capture_output=True)
        lines = said.stderr.decode().splitlines(keepends=True)
        starts = [line for line in lines if line.startswith(("fleet: begins", "fleet: goes on"))]
        others = [line for line in lines if line not in starts]
        self.start = starts[0] if starts else None
        if others and "not written whole" in others[0]:
            self.start, others = others[0] + self.start, others[1:]
        return said.stdout.decode(), "".join(others), said.returncode

    def test_a_journal_that_tells_nothing(self):
        for text in ("", HEAD[:-1], HEAD[:20], b"\0" * 10 + HEAD.encode()):
            self.journal(text)
            self.assertEqual(self.run_program(["live", "--traces", self.traces, "--resume-only", self.map], ""),
                             ("", f"fleet: file {self.traces} has no chapter\n", 3))
            self.journal(text)
            self.assertEqual(self.on("look\n"), ("look tick 0 chapter 0 entries 0 idle within 0 at 0 8\nended 0\n", "", 0))
            self.assertEqual(self.start, "fleet: begins anew\n")
            (self.traces / "chapter-0.json").unlink()

    def test_an_opening_alone(self):
        self.journal(HEAD)
        self.assertEqual(self.on("look\n"), ("look tick 0 chapter 1 entries 0 idle within 0 at 0 8\nended 0\n", "", 0))
        self.assertEqual(self.start, "fleet: goes on from chapter 0 at tick 0\n")

    def test_one_that_was_kept_already(self):
        self.on(ASKED)
        self.journal("what is in it is not read\n")
        self.assertEqual(self.on("look\n")[1:], ("", 0))
        self.assertEqual(self.chapters(), ["chapter-0.json", "chapter-1.json"])

    def test_refusals(self):
        self.journal(HEAD + TAKES + "[]\n" + TICK)
        self.refused("chapter-0.journal: line 4: it is no entry", 6)
        self.journal("{}\n" + TAKES)
        self.refused("chapter-0.journal: line 1: it is no opening", 6)
        self.journal(HEAD.replace('"chapter":0', '"chapter":1') + TAKES)
        self.refused("chapter-0.journal: line 1: it is chapter 1", 6)
        self.journal(HEAD + TAKES + TICK.replace("[1,8]", "[3,8]"))
        said, complaint, status = self.on("look\n")
        self.assertEqual((said, status), ("", 6))
        self.assertTrue(complaint.startswith(f"fleet: file {self.traces}/chapter-0.journal: line 4: the trace: "), complaint)
        # Nothing was kept.
        self.assertEqual(self.chapters(), [LAST])
        self.journal(HEAD, "chapter-01.journal")
        self.refused("chapter-01.journal: no chapter has this name", 3)
        (self.traces / "chapter-01.journal").unlink()
        self.journal(HEAD.replace('"chapter":0', '"chapter":2'), "chapter-2.journal")
        self.refused("chapter-1.journal: it is missing, and a later one is there", 3)
        (self.traces / "chapter-2.journal").unlink()
        self.journal(HEAD + TAKES + TICK)
        # A tick after the first chapter is at clock 1.
        self.journal(HEAD.replace('"chapter":0', '"chapter":1'), "chapter-1.journal")
        self.refused("chapter-1.journal: line 1: it does not begin with what is after the chapter before it", 6)
        # The journal before it was good, and is a chapter now.
        self.assertEqual(self.chapters(), ["chapter-0.json", "chapter-1.journal"])
        (self.traces / "chapter-1.journal").unlink()
        (self.traces / "chapter-1.journal").mkdir()
        self.refused("chapter-1.journal: it is a pipe, a link or a folder", 3)

    def test_another_map(self):
        self.killed(ASKED, 6)
        self.map.write_text(OPEN)
        said, complaint, status = self.on("look\n")
        self.assertEqual((said, status), ("", 6))
        self.assertTrue(complaint.startswith(f"fleet: file {self.traces}/chapter-0.journal: line "), complaint)
        self.map.write_text("no map")
        self.assertEqual(self.on("look\n")[2], 4)

    def test_who_begins_anew(self):
        self.killed(ASKED, 6)
        self.assertEqual(self.on("look\n", resume=False), ("", f"fleet: file {self.traces} has chapters of another fleet\n", 3))
        self.assertEqual(self.run_program(["live", "--journal", "--robots", "0,8", self.map], ""), ("", "error: '--journal' needs '--traces <DIR>'\n", 2))
        for word in ("x", "16777217", ""):
            self.assertEqual(self.on("", "--recall", word), ("", "error: invalid value for '--recall <N>'\n", 2))

    def test_a_full_disk(self):
        """No file may be longer than a limit: what is told is what the journal has."""
        def limited():
            signal.signal(signal.SIGXFSZ, signal.SIG_IGN)
            resource.setrlimit(resource.RLIMIT_FSIZE, (6000, 6000))
        lines = ASKED + "tick\n" * 1000
        said = subprocess.run([PROGRAM, *self.words()], input=lines.encode(), capture_output=True, preexec_fn=limited)
        self.assertEqual(said.returncode, 3)
        self.assertEqual(said.stderr.decode(), f"fleet: begins anew\nfleet: file {self.traces}/{LAST} cannot be written: File too large (os error 27)\n")
        told = said.stdout.decode().splitlines()
        self.assertNotIn("ended", told[-1])
        ticks = int(told[-1].split()[1].rstrip(":"))
        lines = (self.traces / LAST).read_bytes().split(b"\n")[:-1]
        written = sum(line.startswith(b'["tick"') for line in lines)
        self.assertLessEqual(ticks, written)
        self.assertEqual(self.on("since 0 0\nlook\n")[0].splitlines()[:3], TOLD)
        self.assertIn(f"at tick {written}\n", self.start)

    def test_each_call_that_fails(self):
        """Whichever call of the system fails, nothing was told that is not there later."""
        strace = shutil.which("strace")
        self.assertIsNotNone(strace, "this test needs strace")
        lines = "post 0 go 0 1\ntick\nchapter\npost 0 go 0 5\ntick 2\nchapter\ntick\npost 0 go 0 0\ntick 3\n"
        names = [self.traces / f"chapter-{number}.{end}" for number in range(4) for end in ("journal", "part", "json")]
        paths = [word for name in [self.traces, *names] for word in ("-P", name)]
        statuses = set()
        for call, error in (("write", "ENOSPC"), ("fdatasync", "EIO"), ("fsync", "EIO"), ("openat", "EMFILE"), ("link", "EIO"), ("unlink", "EIO")):
            for when in range(1, 13):
                for name in self.chapters():
                    (self.traces / name).unlink()
                fault = ["-e", f"trace={call}", "-e", f"inject={call}:error={error}:when={when}"]
                ran = [strace, "-f", "-qq", "-o", "/dev/null", *paths, *fault, PROGRAM, *self.words()]
                said = subprocess.run(ran, input=lines.encode(), capture_output=True)
                with self.subTest(call=call, when=when, said=said.stderr.decode()):
                    self.assertIn(said.returncode, (0, 3))
                    statuses.add((call, said.returncode))
                    told = [line for line in said.stdout.decode().splitlines() if line.startswith("collected ")]
                    again, complaint, status = self.on("since 0 0\n")
                    self.assertEqual((complaint, status), ("", 0))
                    self.assertEqual(told, again.splitlines()[:len(told)])
                    if b".journal cannot be written" in said.stderr:
                        self.assertEqual((said.returncode, b"ended" in said.stdout), (3, False))
        self.assertLessEqual({("write", 3), ("fdatasync", 3), ("fsync", 3), ("openat", 3)}, statuses)

    def test_a_folder_that_is_gone(self):
        process = subprocess.Popen([PROGRAM, *self.words()], stdin=subprocess.PIPE, stdout=subprocess.PIPE, stderr=subprocess.PIPE)
        process.stdin.write(ASKED.encode())
        process.stdin.flush()
        for _ in range(6):
            process.stdout.readline()
        elsewhere = self.path / "elsewhere"
        os.rename(self.traces, elsewhere)
        said, complaint = process.communicate(b"chapter\ntick\nchapter\ntick\n", timeout=60)
        self.assertEqual(process.returncode, 3)
        self.assertIn(f"fleet: file {self.traces}/chapter-", complaint.decode())
        self.assertIn(".journal cannot be written: No such file or directory (os error 2)\n", complaint.decode())
        self.assertNotIn(b"ended", said)
        # What was told is where the folder went.
        os.rename(elsewhere, self.traces)
        self.assertEqual(self.on("since 0 0\n")[0].splitlines()[:3], TOLD)


if __name__ == "__main__":
    unittest.main()

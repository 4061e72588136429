"""The asyncio client of the pipes: `nashirudder.stream`."""

import asyncio
import os
import signal
import subprocess
import sys
import time

from kit import BIN, HERE, RING, WALL, Case
from nashirudder import Ended, Missing, OutOfRange, Refused, Session
from nashirudder.events import Arrived, Judged, Moved, NotPosted, Over, Posted
from nashirudder.stream import FleetStream
from nashirudder.stream_book import MOST_EVENTS


# Answers one line, and reads the others when its parent has gone
SLOW_READER = """#!{python}
import os, sys, time
parent = os.getppid()
line = b""
while not line.endswith(b"\\n"):
    line += os.read(0, 1)
print(line.split()[0].decode(), "look tick 0 chapter 0 entries 0 idle within 0 at 0", flush=True)
while os.getppid() == parent:
    time.sleep(0.01)
text = sys.stdin.buffer.read()
with open("{read}.part", "wb") as file:
    file.write(text)
os.rename("{read}.part", "{read}")
"""
POSTS = """
import asyncio, sys
sys.path.insert(0, {path!r})
from nashirudder.stream import FleetStream

async def post():
    fleet = await FleetStream.open({map!r}, [0], built={fake!r})
    for _ in range(20000):
        fleet.go(0, 123456789)
    await asyncio.sleep(0.1)
    print("full", flush=True)
    await asyncio.sleep(600)

asyncio.run(post())
"""


async def rest(fleet):
    """The events up to the end."""
    async def read():
        return [event async for event in fleet]

    return await asyncio.wait_for(read(), 120)


class Stream(Case):
    def setUp(self):
        super().setUp()
        self.map = self.folder / "ring.map"
        self.map.write_text(RING)

    async def opened(self, **words):
        return await FleetStream.open(self.map, [0, 3], built=BIN, **words)

    async def test_one_stream_has_all_in_order(self):
        async with await self.opened(watch=True) as fleet:
            self.assertEqual((fleet.begun.tick, fleet.begun.cells), (0, [0, 3]))
            fleet.go(0, 6, note="near")
            fleet.go(0, WALL, note="wall")
            fleet.go(1, 9, client=1, note="nobody's")
            await fleet.ask("tick")
            events = fleet.at_hand()
        # the pair of words of the answer to a tick is the answer's alone
        self.assertEqual(events, [
            Posted(0, 1, "near"), Judged(0, 1, "accepted", 1, "near", 1), Posted(0, 2, "wall"), Judged(0, 2, "blocked", None, "wall", 2),
            NotPosted(1, "no-client", "nobody's"), Arrived(0, 1, 0, 6, 1, 0, "near", 3)])
        self.assertEqual(await rest(fleet), [Over(0, 1, "")])

    async def test_turns_are_told_with_a_period(self):
        async with await self.opened(watch=True, period_ms=5) as fleet:
            fleet.go(1, 21, note=7)
            ticks = []
            async for event in fleet:
                if isinstance(event, Moved):
                    ticks.append(event)
                elif isinstance(event, Arrived):
                    break
        self.assertEqual((event.robot, event.cell, event.note), (1, 21, 7))
        self.assertEqual([it.tick for it in ticks], list(range(ticks[0].tick, ticks[0].tick + len(ticks))))

    async def test_ticks_are_left_out_and_nothing_else(self):
        fleet = await self.opened(watch=True)
        for number in range(MOST_EVENTS + 10):
            fleet._hear(b"tick %d: 0 3\n" % (number + 1))
        fleet._hear(b"collected 0 1 arrived 1 robot 0 cell 6 tick 2 stamp 0\n")
        events = fleet.at_hand()
        self.assertEqual((len(events), type(events[-1])), (MOST_EVENTS + 1, Arrived))
        await fleet.close()

    async def test_a_withdrawal_and_a_full_lane(self):
        async with await self.opened(lane=1, mailbox=3) as fleet:
            for cell, note in ((9, "a"), (15, "b"), (21, "c"), (20, "d")):
                fleet.go(1, cell, note=note)
            await fleet.look()
            # two errands and their arrivals fill the mailbox; the third order waits in the lane, which has one place
            told = [(type(it).__name__, it.note) for it in fleet.at_hand()]
            self.assertEqual(told, [("Posted", "a"), ("Judged", "a"), ("Posted", "b"), ("Judged", "b"), ("Posted", "c"), ("NotPosted", "d")])
        async with await self.opened() as fleet:
            fleet.go(1, 9, note="a")
            fleet.go(1, 15, note="b")
            fleet.withdraw(2, note="back")
            fleet.withdraw(1, note="late")
            self.assertEqual([it.number for it in await fleet.open_errands()], [1])
            self.assertEqual([it[2:5] for it in fleet.at_hand() if isinstance(it, Judged)][2:],
                             [("withdrawn", None, "back"), ("too-late", None, "late")])

    async def test_errands_of_before_arrive_without_a_note(self):
        (self.folder / "traces").mkdir()
        words = {"traces": self.folder / "traces", "resume": True}
        async with await self.opened(**words) as fleet:
            fleet.go(0, 6, note="mine")
        async with await self.opened(**words) as fleet:
            self.assertEqual([(it.number, it.robot, it.cell) for it in await fleet.open_errands()], [(1, 0, 6)])
            await fleet.ask("tick")
            self.assertEqual(fleet.at_hand(), [Arrived(0, 1, 0, 6, 1, 0, None, 2)])

    async def test_a_session_after_a_kill(self):
        (self.folder / "traces").mkdir()
        words = {"traces": self.folder / "traces", "resume": True, "journal": True, "clients": 2}
        fleet = await self.opened(**words)
        self.assertEqual(await fleet.session(1), Session(0, 0, 1, False))
        fleet.go(0, 6, client=1, note="mine")
        fleet.go(0, WALL, client=1)
        await fleet.ask("tick")
        # every word of these is the protocol's, worked out by hand
        told = [Judged(1, 1, "accepted", 1, None, 1), Judged(1, 2, "blocked", None, None, 2), Arrived(1, 1, 0, 6, 1, 0, None, 3)]
        self.assertEqual(await fleet.since(0, 1), told)
        os.kill(fleet.pid, signal.SIGKILL)
        await fleet.close()
        async with await self.opened(recall=2, **words) as fleet:
            self.assertEqual(await fleet.session(1), Session(2, 3, 2, False))
            self.assertEqual([await fleet.since(seq, 1) for seq in (0, 2, 3)], [told[1:], told[2:], []])
            self.assertEqual(await fleet.since(0), [])
            await fleet.ask("post 1 close")
            self.assertEqual(await fleet.session(1), Session(3, 4, 3, True))
            for asked in (fleet.session(2), fleet.since(0, 2)):
                with self.assertRaises(Refused):
                    await asked
            for seq in (-1, 2**64):
                with self.assertRaises(OutOfRange):
                    await fleet.since(seq)

    async def test_many_notices_are_told_again(self):
        async with await self.opened(recall=2000) as fleet:
            for _ in range(1500):
                fleet.withdraw(9)
            await fleet.look()
            self.assertEqual([it.seq for it in await fleet.since(400)], list(range(401, 1501)))

    async def test_words_of_a_journal(self):
        for words in ({"journal": True}, {"recall": -1}, {"recall": 2**24 + 1}):
            with self.assertRaises(OutOfRange):
                await self.opened(**words)

    def test_no_line_is_cut_where_its_process_is_killed(self):
        """The program does not read for a while, so that its pipe is full when the process that posts is killed."""
        read, fake = self.folder / "read", self.folder / "fleet"
        fake.write_text(SLOW_READER.format(python=sys.executable, read=read))
        fake.chmod(0o755)
        posts = POSTS.format(path=str(HERE.parents[1] / "bindings" / "python"), map=str(self.map), fake=str(fake))
        process = subprocess.Popen([sys.executable, "-c", posts], stdout=subprocess.PIPE)
        self.assertEqual(process.stdout.readline(), b"full\n")
        process.kill()
        process.wait()
        process.stdout.close()
        for _ in range(12_000):
            if read.exists():
                break
            time.sleep(0.01)
        lines = read.read_bytes().split(b"\n")
        self.assertEqual(lines.pop(), b"")
        self.assertGreater(len(lines), 1000)
        self.assertEqual({line.split(b" ", 1)[1] for line in lines}, {b"post 0 go 0 123456789"})

    async def test_what_waits_for_the_pipe_is_written_when_it_has_room(self):
        fleet = await self.opened(lane=65_536)
        os.kill(fleet.pid, signal.SIGSTOP)
        for _ in range(20_000):
            fleet.go(0, WALL)
        await asyncio.sleep(0)
        full = asyncio.ensure_future(fleet.drain())
        await asyncio.sleep(0)
        self.assertFalse(full.done())
        os.kill(fleet.pid, signal.SIGCONT)
        await full
        await fleet.look()
        self.assertEqual([it.number for it in fleet.at_hand() if isinstance(it, Judged)], list(range(1, 20_001)))
        await fleet.close()

    async def test_a_program_that_is_killed(self):
        fleet = await self.opened()
        os.kill(fleet.pid, signal.SIGKILL)
        self.assertEqual(await rest(fleet), [Over(-9, None, "")])
        with self.assertRaises(Ended):
            fleet.go(0, 6)
        with self.assertRaises(Ended):
            await fleet.ask("look")
        self.assertEqual(await fleet.close(), -9)

    async def test_what_is_asked_fails_with_the_program(self):
        fleet = await self.opened()
        os.kill(fleet.pid, signal.SIGSTOP)
        answer = fleet.ask("look")
        os.kill(fleet.pid, signal.SIGKILL)
        with self.assertRaises(Ended):
            await answer
        await fleet.close()

    async def test_refused_openings(self):
        with self.assertRaises(Refused) as caught:
            await FleetStream.open(self.map, [0, 0], built=BIN)
        self.assertEqual(caught.exception.name, "start-shared")
        with self.assertRaises(Missing):
            await FleetStream.open(self.map, [0], built="/no/such/program")

    async def test_a_line_of_no_protocol_ends_it(self):
        fleet = await self.opened()
        fleet._hear(b"collected 0 1 arrived 1 robot 0 cell 6 tick 2 stamp 0\ncollected 0 3 arrived 2 robot 0 cell 6 tick 2 stamp 0\n")
        *_, over = await rest(fleet)
        self.assertIn("no line of the protocol", over.complaint)
        await fleet.close()

"""What is known of each errand after the fleet or the gateway died: compared with the chapters, which are the history."""

import asyncio
import contextlib
import json
import os
import pathlib
import re
import signal
import sqlite3
import unittest.mock

from kit import Case
from nashirudder_gateway.desk import Desk
from nashirudder_gateway.site import BadSite, Site

from nashirudder.errors import Ended
from nashirudder.stream import FleetStream

NEVER = 3_600_000.0


def history(folder):
    """Of the chapters, by a reading of this test's own: the errands that were accepted, and the arrivals, as (robot, cell)."""
    taken, came, cell_of = [], [], {}
    paths = pathlib.Path(folder).glob("chapters/chapter-*.json")
    for path in sorted(paths, key=lambda it: int(re.search(r"(\d+)\.json", it.name)[1])):
        for entry in json.loads(path.read_text())["entries"]:
            if entry[0] == "take" and entry[2][0] == "go" and entry[3][0] == "accepted":
                taken.append(tuple(entry[2][1:]))
                cell_of[entry[3][1]] = tuple(entry[2][1:])
            elif entry[0] == "tick":
                came += [cell_of[number] for _, _, number, _ in entry[2]]
    return taken, came


def change(folder, *changes):
    """Changes the journal of a gateway that has ended."""
    with contextlib.closing(sqlite3.connect(folder / "data" / "journal.db")) as rows, rows:
        for it in changes:
            rows.execute(it)


class Recovery(Case):
    async def kill_fleet(self, it):
        os.kill(it.desk.fleet.pid, signal.SIGKILL)
        await it.until(lambda: not it.desk.is_ready)
        await it.until(lambda: it.desk.is_ready)

    async def test_what_was_told_stands_when_the_fleet_is_killed(self):
        async with self.gateway(keep_every=NEVER) as it:
            ids = [(await it.post(robot, cell, f"{robot}-{cell}"))[1]["id"] for robot, cell in ((0, 18), (1, 18), (0, 21))]
            await it.until(lambda: it.desk.journal.find(ids[0]).state == "arrived")
            told = await it.errand(ids[0])
            self.assertTrue(told["kept"])
            may_start, start = asyncio.Event(), Site.start

            async def later(site):
                await may_start.wait()
                return await start(site)

            with unittest.mock.patch.object(Site, "start", later):
                os.kill(it.desk.fleet.pid, signal.SIGKILL)
                await it.until(lambda: not it.desk.is_ready)
                self.assertEqual((await it.post(0, 18, "0-18"))[1], told)      # a key that is known is answered also now
                self.assertEqual((await it.post(1, 0, "new"))[0], 503)
                may_start.set()
                await it.until(lambda: it.desk.is_ready)
            self.assertEqual((await it.post(0, 18, "0-18"))[1], told)
            await it.until(lambda: all(it.desk.journal.find(id).state == "arrived" for id in ids))
            self.assertEqual(it.desk.counts["gateway_posted_again_total"], 0)
        taken, came = history(self.folder / "data")
        self.assertEqual((sorted(taken), sorted(came)), ([(0, 18), (0, 21), (1, 18)],) * 2)

    async def test_a_fleet_that_hangs_is_started_again(self):
        with unittest.mock.patch("nashirudder_gateway.desk.STUCK", 3.0):
            async with self.gateway() as it:
                await it.post(0, 18, "a")
                hung = it.desk.fleet.pid
                os.kill(hung, signal.SIGSTOP)
                await it.until(lambda: it.desk.trouble == "the fleet does not answer")
                await it.until(lambda: it.desk.is_ready and it.desk.fleet.pid != hung)
                await it.until(lambda: it.desk.journal.find(1).state == "arrived")
        self.assertEqual(history(self.folder / "data"), ([(0, 18)], [(0, 18)]))

    async def test_a_cancellation_that_is_swallowed(self):
        """As asyncio.wait_for does it where what it waits for comes at the same moment."""
        swallowed = []

        async def look(_desk, _fleet):
            try:
                await asyncio.sleep(3600)
            except asyncio.CancelledError:
                swallowed.append(True)
            await asyncio.sleep(3600)

        with unittest.mock.patch.object(Desk, "_look", look):
            async with self.gateway() as it:
                await self.kill_fleet(it)
                self.assertEqual(swallowed, [True])

    async def test_a_fleet_that_is_killed_while_it_starts(self):
        async def killed(_site):
            raise Ended(-9, "")

        gateway = self.gateway()
        with unittest.mock.patch.object(Site, "start", killed):
            entering = asyncio.ensure_future(gateway.__aenter__())
            for _ in range(12_000):
                if "status -9" in getattr(getattr(gateway, "desk", None), "trouble", ""):
                    break
                await asyncio.sleep(0.01)
        await entering
        await gateway.__aexit__()

    async def test_orders_that_the_fleet_does_not_have_are_posted_again_in_their_order(self):
        """It is stopped, so that it takes none of them, and then killed."""
        async with self.gateway(period=NEVER, keep_every=NEVER) as it:
            self.assertEqual((await it.post(0, 18, "taken"))[0], 201)
            os.kill(it.desk.fleet.pid, signal.SIGSTOP)
            lost = [asyncio.ensure_future(it.post(1, cell, f"lost {cell}".replace(" ", "-"))) for cell in (18, 21, 0)]
            await it.until(lambda: all(it.desk.journal.find(id) is not None and it.desk.journal.find(id).is_written for id in (2, 3, 4)))
            os.kill(it.desk.fleet.pid, signal.SIGKILL)
            self.assertEqual([(await one)[0] for one in lost], [202, 202, 202])
            await it.until(lambda: it.desk.is_ready and it.desk.journal.find(4).state == "accepted")
            self.assertEqual(it.desk.counts["gateway_posted_again_total"], 3)
            open_now = await it.desk.fleet.open_errands()
            self.assertEqual([(one.robot, one.cell, one.place) for one in open_now], [(0, 18, 1), (1, 18, 1), (1, 21, 2), (1, 0, 3)])
            self.assertEqual([(one["errands"], one["goal"]) for one in (await it.ask("GET", "/robots"))[1]["robots"]], [(1, 18), (3, 18)])
            self.assertEqual(it.desk.open_of["anyone"], 4)

    async def test_a_gateway_that_starts_again_knows_all(self):
        async with self.gateway() as it:
            await it.post(0, 18, "a")
            await it.until(lambda: it.desk.journal.find(1).state == "arrived")
            self.assertEqual((await it.post(0, 7, "b"))[0], 422)
            await it.ask("POST", "/robots/1/shut")
            with self.assertRaises(BadSite):            # one gateway has the folder at a time
                Desk(it.site, it.seats.tell)
        async with self.gateway(period=NEVER) as it:
            for _ in range(2):
                status, told, _ = await it.post(0, 18, "a")
                self.assertEqual((status, told["id"], told["state"], told["kept"]), (200, 1, "arrived", True))
            self.assertEqual([(one["id"], one["state"]) for one in (await it.ask("GET", "/errands"))[1]["errands"]], [(1, "arrived"), (2, "refused")])
            status, told, _ = await it.post(0, 0, "c")
            self.assertEqual((status, told["id"]), (201, 3))
            self.assertEqual([one["state"] for one in (await it.ask("GET", "/robots"))[1]["robots"]], ["busy", "shut"])

    async def test_a_robot_that_was_to_be_shut_is_shut_by_the_next_fleet(self):
        async with self.gateway(period=NEVER) as it:
            it.desk.journal.write_shut(1)               # and the gateway died before the fleet heard of it
        async with self.gateway(period=NEVER) as it:
            self.assertEqual((await it.post(1, 18))[1]["error"], "robot-shut")
        change(self.folder, "delete from shut")
        async with self.gateway(period=NEVER) as it:    # what the journal does not know shows with the next refusal
            self.assertEqual((await it.ask("GET", "/robots/1"))[1]["state"], "free")
            await it.post(1, 18)
            self.assertEqual((await it.ask("GET", "/robots/1"))[1]["state"], "shut")

    async def test_errands_that_are_old_are_removed_and_their_ids_are_not_given_again(self):
        async with self.gateway(period=NEVER) as it:
            self.assertEqual((await it.post(0, 7, "a"))[0], 422)
            await it.post(0, 18, "b")
            await it.until(lambda: it.desk.journal.find(1).is_written and 1 not in it.desk.journal.open)
            it.desk.journal.remove_before(it.desk.journal.find(2).changed + 1e9)
            self.assertIsNone(it.desk.journal.find(1))
            self.assertEqual((await it.errand(2))["key"], "b")
        change(self.folder, "delete from errands")
        async with self.gateway(period=NEVER) as it:
            await it.until(lambda: it.desk.journal.find(3) is not None)        # of the fleet's errand, which nobody knows now

    async def test_a_withdrawal_that_was_told_stands(self):
        async with self.gateway(period=NEVER, keep_every=NEVER) as it:
            for cell in (18, 21, 3):
                await it.post(0, cell)
            for id in (2, 3):
                self.assertEqual((await it.ask("DELETE", f"/errands/{id}"))[0], 200)
            await self.kill_fleet(it)
            open_now = await it.desk.fleet.open_errands()
            self.assertEqual([(one.robot, one.cell) for one in open_now], [(0, 18)])
            self.assertEqual([(await it.errand(id))["state"] for id in (2, 3)], ["withdrawn", "withdrawn"])

    async def test_what_the_gateway_did_not_hear_is_told_again(self):
        """Its journal is that of a moment before: the verdicts, the arrivals and the withdrawal came after it."""
        async with self.gateway() as it:
            await it.post(1, 12, "before")
            await it.until(lambda: it.desk.journal.find(1).state == "arrived")
        async with self.gateway(period=NEVER) as it:
            heard = it.desk.journal.heard
            for cell in (18, 21, 3, 7):
                await it.post(0, cell, f"{cell}")
            self.assertEqual((await it.ask("DELETE", "/errands/4"))[0], 200)
        async with self.gateway() as it:
            await it.until(lambda: it.desk.journal.find(3).state == "arrived")
            wanted = [await it.errand(id) for id in range(1, 5)]
        change(self.folder, "update errands set state = 'posted', accepted = null, tick = null where id in (2, 3)", f"update facts set value = {heard}",
                  "update errands set state = 'accepted' where id = 4", "update errands set state = 'posted', reason = null, key = '7' where id = 5")
        async with self.gateway(period=NEVER) as it:
            self.assertEqual([await it.errand(id) for id in range(1, 5)], wanted)
            self.assertEqual(((await it.errand(5))["reason"], (await it.errand(5))["key"]), ("blocked", None))
            self.assertEqual([it.desk.counts[f"gateway_{word}_total"] for word in ("adopted", "lost", "posted_again")], [0, 0, 0])
            self.assertEqual(it.desk.open_of["anyone"], 0)

    async def test_an_intent_without_its_post(self):
        """The gateway died between the disk and the pipe, or after: both look so in the journal."""
        async with self.gateway(period=NEVER) as it:
            await it.post(0, 18, "posted")
        change(self.folder, "update errands set state = 'posted', accepted = null", "update facts set value = 0",
                  "insert into errands values (2, 'anyone', 'not-posted', 1, 18, 2, null, 'posted', null, null, 0)")
        async with self.gateway() as it:
            await it.until(lambda: all(it.desk.journal.find(id).state == "arrived" for id in (1, 2)))
            self.assertEqual([(await it.post(*words))[1].get("id", "?") for words in ((0, 18, "posted"), (1, 18, "not-posted"))], [1, 2])
        taken, came = history(self.folder / "data")
        self.assertEqual((taken, sorted(came)), ([(0, 18), (1, 18)], [(0, 18), (1, 18)]))

    async def test_a_disk_that_is_full_for_a_while(self):
        async with self.gateway(period=NEVER) as it:
            self.assertEqual([(await it.post(0, cell))[0] for cell in (18, 21)], [201, 201])
            write, full = it.desk.journal.write, True

            def maybe(batch):
                if full:
                    raise sqlite3.OperationalError("database or disk is full")
                write(batch)

            it.desk.journal.write = maybe
            # at once, as the fleet's orders 3 and 4
            back = asyncio.ensure_future(it.desk.withdraw(it.desk.journal.find(2), 0.1))
            await asyncio.sleep(0)
            it.desk.post("anyone", 1, 18, "a")
            await it.until(lambda: "disk is full" in it.desk.trouble)
            self.assertEqual(it.desk.journal.find(3).number, 4)
            with unittest.mock.patch("nashirudder_gateway.door.VERDICT_SECONDS", 0.1):
                self.assertEqual((await it.post(1, 18, "a"))[0], 503)       # it may be taken later: the key says whether it was
            self.assertEqual((await it.post(1, 18, "b"))[0], 503)
            self.assertEqual((await it.ask("GET", "/ready"))[0], 503)
            os.kill(it.desk.fleet.pid, signal.SIGKILL)
            await it.until(lambda: "status -9" in it.desk.trouble)
            self.assertIsNone(await back)
            full, heard, go = False, [], FleetStream.go

            def hear(fleet, robot, cell, client=0, note=None):
                """What the disk has when the fleet hears of an errand."""
                with contextlib.closing(sqlite3.connect(self.folder / "data" / "journal.db")) as rows:
                    heard.append(rows.execute("select number, state from errands where id = ?", (note.id,)).fetchone())
                go(fleet, robot, cell, client, note)

            with unittest.mock.patch.object(FleetStream, "go", hear):
                await it.until(lambda: it.desk.is_ready and it.desk.journal.find(3).state == "accepted")
            self.assertEqual((heard, (await it.post(1, 18, "a"))[0]), ([(3, "posted")], 200))

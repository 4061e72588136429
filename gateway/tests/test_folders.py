"""Folders that an earlier gateway wrote, or that are not whole, and those of another fleet."""

import contextlib
import re
import sqlite3
import subprocess

from kit import BIN, RING, Case
from nashirudder_gateway.site import BadSite
from test_recovery import NEVER, change, history

from nashirudder.finding import program

# As an earlier gateway wrote it: kept is 0 where no chapter had the errand's verdict, 1 where one had that and not its end, 2 where one had its end. Errands
# 2 and 5 were told as arrived and accepted, and no chapter has that; 7 was never posted. They changed so late that none is old enough to be removed.
EARLIER = """
create table errands (
    id integer primary key autoincrement, owner text not null, key text, robot integer not null, cell integer not null,
    number integer, accepted integer, state text not null, reason text, tick integer, kept integer not null,
    changed real not null);
create unique index by_key on errands (owner, key) where key is not null;
create index by_owner on errands (owner, id);
create index unsettled on errands (kept) where kept < 2;
create table facts (name text primary key, value integer not null);
insert into facts values ('next_chapter', 1);
insert into errands values
    (1, 'anyone', 'a', 0, 6, 1, 1, 'accepted', null, null, 1, 4e9), (2, 'anyone', 'b', 0, 18, 2, 2, 'arrived', null, 9, 1, 4e9),
    (3, 'anyone', 'c', 1, 12, 3, null, 'posted', null, null, 0, 4e9), (4, 'anyone', 'd', 0, 21, 4, 4, 'withdrawn', null, null, 2, 4e9),
    (5, 'anyone', 'e', 0, 20, 6, 5, 'accepted', null, null, 0, 4e9), (6, 'anyone', null, 0, 7, 5, null, 'refused', 'blocked', null, 2, 4e9),
    (7, 'anyone', 'g', 1, 19, null, null, 'posted', null, null, 0, 4e9);
"""


class Folders(Case):
    async def test_a_journal_that_was_lost(self):
        async with self.gateway(period=NEVER) as it:
            await it.post(0, 18, "a")
        for path in (self.folder / "data").glob("journal*"):
            path.unlink()
        async with self.gateway(period=NEVER) as it:
            self.assertEqual(it.desk.counts["gateway_adopted_total"], 1)
        async with self.gateway() as it:
            await it.until(lambda: it.desk.journal.find(1).state == "arrived")
            await it.post(1, 21, "b")
            await it.until(lambda: it.desk.journal.find(2).state == "arrived")
            self.assertEqual(it.desk.open_of.total(), 0)
        self.assertEqual(history(self.folder / "data")[0], [(0, 18), (1, 21)])

    async def refused(self, says):
        gateway = self.gateway(period=NEVER)
        with self.assertRaises(BadSite) as caught:
            await gateway.__aenter__()
        await gateway.session.close()
        await gateway.server.close()
        gateway.desk.end()
        self.assertIn(says, str(caught.exception))

    async def test_a_journal_of_another_fleet_is_refused(self):
        async with self.gateway(period=NEVER) as it:
            await it.post(0, 18, "a")
        change(self.folder, "update errands set cell = 21")
        await self.refused("is not of this fleet: its errand 1 goes elsewhere")
        change(self.folder, "update errands set cell = 18", "update facts set value = 2")
        await self.refused("has heard notice 2, and the fleet has told 1")
        change(self.folder, "update facts set value = 1")
        async with self.gateway(period=NEVER) as it:
            self.assertEqual((await it.post(0, 18, "a"))[0], 200)

    async def test_chapters_that_are_missing(self):
        async with self.gateway() as it:
            await it.post(0, 18, "a")
            await it.until(lambda: it.desk.journal.find(1).state == "arrived")
            await it.ask("POST", "/chapter")
            await it.post(1, 18, "b")
            await it.until(lambda: it.desk.journal.find(2).state == "arrived")
            for _ in range(2):
                await it.ask("POST", "/chapter")
        there = sorted((self.folder / "data" / "chapters").glob("chapter-*.json"), key=lambda it: int(re.search(r"(\d+)\.json", it.name)[1]))
        for path in there[:-1]:
            path.unlink()
        change(self.folder, "update errands set state = 'accepted', tick = null where id = 1", "update errands set state = 'posted', tick = null where id = 2",
                  "update facts set value = 1")
        async with self.gateway(period=NEVER) as it:
            self.assertEqual([(await it.errand(id))["state"] for id in (1, 2)], ["lost", "lost"])
            self.assertEqual(it.desk.counts["gateway_lost_total"], 2)

    async def test_the_folder_of_an_earlier_gateway_is_taken_over(self):
        """One that was killed: what no chapter has is gone, though it was told. Its rows say what its last process told."""
        data = self.folder / "data"
        (data / "chapters").mkdir(parents=True)
        (self.folder / "ring.map").write_text(RING)
        head = self.folder / "head"
        head.write_text("robots 0 3\nclients 1\nlane 65536\nmailbox 65536\noutlet 4096\nqueue 1024\n")
        lines = "post 0 go 0 6\npost 0 go 0 18\npost 0 go 1 12\ntick\npost 0 go 0 21\npost 0 withdraw 4\n"
        subprocess.run([program(BIN), "live", "--traces", data / "chapters", self.folder / "ring.map", head], input=lines, text=True, check=True,
                       capture_output=True)
        with contextlib.closing(sqlite3.connect(data / "journal.db")) as rows:
            rows.executescript(EARLIER)
        async with self.gateway(period=NEVER) as it:
            await it.until(lambda: it.desk.journal.find(7).state == "accepted")
            states = [(await it.errand(id))["state"] for id in range(1, 8)]
            self.assertEqual(states, ["arrived", "accepted", "accepted", "withdrawn", "accepted", "refused", "accepted"])
            self.assertEqual(it.desk.counts["gateway_posted_again_total"], 2)
            open_now = await it.desk.fleet.open_errands()
            self.assertEqual([(one.robot, one.cell) for one in open_now], [(0, 18), (0, 20), (1, 12), (1, 19)])
            self.assertEqual((await it.post(0, 20, "e"))[1]["id"], 5)

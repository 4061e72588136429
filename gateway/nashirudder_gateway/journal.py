"""The journal: errands by id and by key, in a file of SQLite, and how far the fleet was heard."""

import sqlite3
import time
from typing import Any, Dict, List, NamedTuple, Optional, Set, Tuple

from .errand import REFUSED, Errand

_TABLES = """
pragma journal_mode = wal;
pragma synchronous = full;
create table if not exists errands (
    id integer primary key autoincrement, owner text not null, key text, robot integer not null, cell integer not null,
    number integer, accepted integer, state text not null, reason text, tick integer, changed real not null);
create unique index if not exists by_key on errands (owner, key) where key is not null;
create index if not exists by_owner on errands (owner, id);
create index if not exists open_ones on errands (id) where state in ('posted', 'accepted');
create table if not exists facts (name text primary key, value integer not null);
create table if not exists shut (robot integer primary key);
"""
# A file from before the fleet had a journal: `kept` is 0 where no chapter has the errand's verdict, and 1 where one has that and not its end. What was
# told beyond that may have been lost: the fleet tells it again if it was not.
_TAKE_OVER = """
begin immediate;
update errands set state = 'posted', accepted = null, tick = null where kept = 0 and state != 'withdrawn';
update errands set state = 'accepted', tick = null where kept = 1;
drop index if exists unsettled;
alter table errands drop column kept;
delete from facts;
commit;
"""
_COLUMNS = "id, owner, key, robot, cell, number, accepted, state, reason, tick, changed"
_IS_OPEN = "state in ('posted', 'accepted')"
_REPLACE = f"insert or replace into errands ({_COLUMNS}) values (?, ?, ?, ?, ?, ?, ?, ?, ?, ?, ?)"
# of an errand that is there: what no index has, but for the state
_UPDATE = "update errands set number = ?, accepted = ?, state = ?, reason = ?, tick = ?, changed = ? where id = ?"
_HEARD = "heard"


class Batch(NamedTuple):
    """Rows to be written whole, and those of which no key changed; and the number of the last notice that they follow from, if that is new."""

    whole: List[Tuple[Any, ...]]
    parts: List[Tuple[Any, ...]]
    heard: Optional[int]


class Journal:
    """Open errands are in memory; the others are read from the file. What changed goes to the disk in batches, each one transaction: `batch`
    takes it in the event loop's thread, and gives it again until it was written (`settle`); `write` writes it in another one."""

    def __init__(self, path: str) -> None:
        self._writes = sqlite3.connect(path, isolation_level=None, check_same_thread=False)
        if "kept" in [row[1] for row in self._writes.execute("pragma table_info(errands)")]:
            self._writes.executescript(_TAKE_OVER)
        self._writes.executescript(_TABLES)
        self._reads = sqlite3.connect(path, isolation_level=None)
        self.open: Dict[int, Errand] = {
            row[0]: Errand.of_row(row) for row in self._reads.execute(f"select {_COLUMNS} from errands where {_IS_OPEN}")}
        self._keys = {(it.owner, it.key): it for it in self.open.values() if it.key is not None}
        self._last = self._one("select seq from sqlite_sequence where name = 'errands'") or 0
        self._changed: Dict[int, Errand] = {}
        self._heard, self._is_heard_new = self._one("select value from facts where name = ?", _HEARD), False
        self._under_way: Optional[Batch] = None
        self.shut: Set[int] = {row[0] for row in self._reads.execute("select robot from shut")}

    def _one(self, query: str, *values: object) -> Optional[int]:
        found = self._reads.execute(query, values).fetchone()
        return None if found is None else found[0]

    @property
    def heard(self) -> Optional[int]:
        """The number of the last notice of the fleet that is taken in, or None if none ever was."""
        return self._heard

    @heard.setter
    def heard(self, seq: int) -> None:
        self._heard, self._is_heard_new = seq, True

    # ---- errands

    def add(self, owner: str, key: Optional[str], robot: int, cell: int) -> Errand:
        self._last += 1
        errand = self.open[self._last] = Errand(self._last, owner, key, robot, cell)
        if key is not None:
            self._keys[owner, key] = errand
        self.note(errand)
        return errand

    def note(self, errand: Errand) -> None:
        """The errand changed: the next batch has it."""
        errand.changed = time.time()
        self._changed[errand.id] = errand
        self.open[errand.id] = errand

    def free_key(self, errand: Errand) -> None:
        """Another errand may be posted with its key."""
        if errand.key is not None:
            self._keys.pop((errand.owner, errand.key), None)
            errand.key = None
            self.note(errand)

    def find(self, number: int) -> Optional[Errand]:
        """The errand of this id."""
        return self.open.get(number) or self._read("id = ?", number)

    def of_key(self, owner: str, key: str) -> Optional[Errand]:
        return self._keys.get((owner, key)) or self._read("owner = ? and key = ?", owner, key)

    def _read(self, where: str, *values: object) -> Optional[Errand]:
        row = self._reads.execute(f"select {_COLUMNS} from errands where {where}", values).fetchone()
        # one that was changed since it was written is in memory, so a row that says otherwise is an old one
        return None if row is None or row[0] in self.open else Errand.of_row(row)

    def listed(self, owner: Optional[str], is_open: Optional[bool], after: int, most: int) -> List[Errand]:
        """Errands by rising id, of this owner or of all, `most` of them from the first one after the id `after`."""
        def fits(it: Errand) -> bool:
            return owner in (None, it.owner) and it.id > after and is_open in (None, it.is_open)

        found = {it.id: it for it in self.open.values() if fits(it)}
        if is_open is not True:
            where, values = ("owner = ? and ", [owner]) if owner is not None else ("", [])
            query = f"select {_COLUMNS} from errands where {where}id > ? and not {_IS_OPEN} order by id limit ?"
            for row in self._reads.execute(query, [*values, after, most]):
                if row[0] not in self.open:
                    found[row[0]] = Errand.of_row(row)
        return [found[id] for id in sorted(found)[:most]]

    # ---- the disk

    def batch(self) -> Optional[Batch]:
        """What has to be written, or None."""
        if self._under_way is None and (self._changed or self._is_heard_new):
            batch = self._under_way = Batch([], [], self._heard if self._is_heard_new else None)
            for errand in self._changed.values():
                row = errand.row()
                # a refused one may have lost its key
                if errand.is_written and errand.state != REFUSED:
                    batch.parts.append((*row[5:], errand.id))
                else:
                    batch.whole.append(row)
            self._changed, self._is_heard_new = {}, False
        return self._under_way

    def write(self, batch: Batch) -> None:
        """Writes a batch down to the disk, as one transaction."""
        with self._writes:
            self._writes.execute("begin immediate")
            self._writes.executemany(_REPLACE, batch.whole)
            self._writes.executemany(_UPDATE, batch.parts)
            if batch.heard is not None:
                self._writes.execute("insert or replace into facts values (?, ?)", (_HEARD, batch.heard))

    def settle(self, batch: Batch) -> None:
        """The batch was written: takes settled errands out of memory."""
        self._under_way = None
        for id in [row[0] for row in batch.whole] + [row[-1] for row in batch.parts]:
            errand = self.open.get(id)
            if errand is None:
                continue
            errand.is_written = True
            if not errand.is_open and id not in self._changed:
                del self.open[id]
                if errand.key is not None:
                    self._keys.pop((errand.owner, errand.key), None)

    def write_shut(self, robot: int) -> None:
        """Writes down that a robot is shut. The fleet is asked after that, and again whenever it starts."""
        self._writes.execute("insert or ignore into shut values (?)", (robot,))

    def remove_before(self, seconds: float) -> None:
        """Removes settled errands that have not changed since, with their keys."""
        self._writes.execute(f"delete from errands where changed < ? and not {_IS_OPEN}", (seconds,))

    def close(self) -> None:
        self._reads.close()
        self._writes.close()

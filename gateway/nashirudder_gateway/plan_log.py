"""The plan that vehicles carry out, on the disk: each placement with the number of the node at which each vehicle then is."""

import json
import operator
import secrets
import sqlite3
import threading
from typing import List, NamedTuple, Optional, Tuple

from .site import BadSite

_TABLES = """
pragma journal_mode = wal;
pragma synchronous = full;
create table if not exists facts (name text primary key, value text not null);
create table if not exists plan (
    step integer primary key, tick integer not null, cells text not null, sequences text not null);
"""


class Placement(NamedTuple):
    """All robots' cells after a step. `tick` is the fleet's, and `sequences` are the nodes' numbers, which rise by 2 with each move."""

    tick: int
    cells: List[int]
    sequences: List[int]

    def then(self, tick: int, cells: List[int]) -> "Placement":
        """The placement after a step to these cells."""
        moved = [sequence + 2 * (cell != before) for sequence, cell, before in zip(self.sequences, cells, self.cells)]
        return Placement(tick, cells, moved)


def _row(step: int, it: Placement) -> Tuple[int, int, str, str]:
    return step, it.tick, json.dumps(it.cells), json.dumps(it.sequences)


class PlanLog:
    """The steps that may not be carried out yet. `add` writes one down before it is told. The orders of all vehicles have one name, `order_id`, as long as the
    log goes on. Any thread may call."""

    def __init__(self, path: str) -> None:
        self._lock = threading.RLock()
        self._file = sqlite3.connect(path, isolation_level=None, check_same_thread=False)
        self._file.executescript(_TABLES)
        rows = self._file.execute("select step, tick, cells, sequences from plan order by step").fetchall()
        self.placements = [Placement(tick, json.loads(cells), json.loads(sequences)) for _, tick, cells, sequences in rows]
        self._first = rows[0][0] if rows else 0
        found = self._file.execute("select value from facts where name = 'order'").fetchone()
        self.order_id: str = found[0] if found else self._new_order()

    def _new_order(self) -> str:
        self.order_id = secrets.token_hex(8)
        self._file.execute("insert or replace into facts values ('order', ?)", (self.order_id,))
        return self.order_id

    def begin(self, tick: int, cells: List[int]) -> Placement:
        """The last placement, at which the fleet begins or goes on with these cells. The fleet may have made one turn more than the log, and never fewer.
        Where the log is of another fleet it begins anew, with an order of another name. Raises BadSite if the fleet is behind it."""
        with self._lock:
            last = self.placements[-1] if self.placements else None
            if last is not None and last.tick > tick:
                raise BadSite(f"the vehicles' plan goes to tick {last.tick}, and the fleet to {tick}: its chapters are older, or were written by an earlier gateway that was "
                              "killed. Put the vehicles where GET /robots has their robots, and remove plan.db")
            if last is not None and last.tick + 1 == tick:
                self.add(last.then(tick, cells))
            elif last is None or (last.tick, last.cells) != (tick, cells):
                self._new_order()
                self.replace([Placement(tick, cells, [0] * len(cells))])
            return self.placements[-1]

    def add(self, placement: Placement) -> None:
        with self._lock:
            self._file.execute("insert into plan values (?, ?, ?, ?)", _row(self._first + len(self.placements), placement))
            self.placements.append(placement)

    def replace(self, placements: List[Placement]) -> None:
        """These in place of all others, as one transaction."""
        with self._lock, self._file:
            self._file.execute("begin immediate")
            self._file.execute("delete from plan")
            self._file.executemany("insert into plan values (?, ?, ?, ?)", [_row(step, it) for step, it in enumerate(placements)])
            self._first, self.placements = 0, placements

    def remove_before(self, reached: List[int]) -> None:
        """Removes the placements before the last one whose nodes every vehicle has reached."""
        with self._lock:
            count = 0
            while count + 1 < len(self.placements) and all(map(operator.le, self.placements[count + 1].sequences, reached)):
                count += 1
            if count:
                del self.placements[:count]
                self._first += count
                self._file.execute("delete from plan where step < ?", (self._first,))

    def way_from(self, reached: List[int]) -> Optional[List[List[int]]]:
        """The placements by which vehicles that stand at these nodes come to the last one of the log: what each has not done of the plan. None if the log does
        not have these nodes."""
        first, last = self.placements[0], self.placements[-1]
        if any(not low <= at <= high for at, low, high in zip(reached, first.sequences, last.sequences)):
            return None
        way = [[self._cell_at(robot, at) for robot, at in enumerate(reached)]]
        for it in self.placements[1:]:
            cells = [to if at < sequence else before for at, sequence, to, before in zip(reached, it.sequences, it.cells, way[-1])]
            if cells != way[-1]:
                way.append(cells)
        return way

    def _cell_at(self, robot: int, sequence: int) -> int:
        return next(it.cells[robot] for it in self.placements if it.sequences[robot] == sequence)

    def close(self) -> None:
        with self._lock:
            self._file.close()

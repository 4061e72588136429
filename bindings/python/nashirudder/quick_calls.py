"""The calls of a `Handle` that a fleet makes at each turn, with room that is used again and again."""

import ctypes
from ctypes import byref
from typing import Any, Callable, List, Optional, Tuple

from .calls import CArrival, CJudgement, CNote, CReport, check
from .names import Verdict
from .records import Arrival

_NOTES = 64


class QuickCalls:
    """Calls by numbers that are known to be whole and not too great. One is made at a time: the room is for one."""

    def __init__(self, call: Callable[..., int], robots: int) -> None:
        self._call, self._count = call, robots
        self._cells, self._gone = (ctypes.c_uint32 * robots)(), (ctypes.c_uint32 * robots)()
        # Of which a list is made faster than of the array itself
        self._seen = memoryview(self._cells).cast("B").cast("I")
        self._came, self._notes = (CArrival * robots)(), (CNote * _NOTES)()
        self._did, self._judged, self._given = CReport(), CJudgement(), ctypes.c_size_t()
        self._ticked: Tuple[Any, ...] = (
            byref(self._did), self._cells, robots, self._came, robots, self._gone, robots,
        )
        self._judgement, self._room = byref(self._judged), (self._notes, _NOTES, byref(self._given))

    def cells(self) -> List[int]:
        """Where the robots stand."""
        check(self._call("placement", self._cells, self._count))
        return self._seen.tolist()

    def tick(self) -> Tuple[List[int], List[Arrival], List[int]]:
        """A tick: where the robots stand after it, who arrived, and who said farewell."""
        check(self._call("tick_into", *self._ticked))
        tick, arrived, farewells = self._did.tick, self._did.arrived, self._did.farewells
        arrivals = [
            Arrival(one.robot, one.client, one.number, one.cell, tick, one.stamp) for one in self._came[:arrived]
        ] if arrived else []
        return self._seen.tolist(), arrivals, self._gone[:farewells] if farewells else []

    def judge(self, call: str, *numbers: int) -> Tuple[Verdict, Optional[int]]:
        """An order: its verdict, and the errand's number if it was accepted."""
        check(self._call(call, *numbers, self._judgement))
        return Verdict(self._judged.verdict), self._judged.number or None

    def drop_notices(self, client: int) -> bool:
        """Takes all notices of a client out of its mailbox; whether there were some."""
        some = False
        while True:
            check(self._call("give_many", client, *self._room))
            if self._given.value == 0:
                return some
            some = True
            if self._given.value < _NOTES:
                return some

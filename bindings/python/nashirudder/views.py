"""What a `Handle` shows without a change of the fleet."""

import ctypes
import threading
from ctypes import byref
from typing import TYPE_CHECKING, Any, Dict, List, Optional, TypeVar, overload

from .arrays import new_cells, room_in, without_array
from .calls import CAccount, CErrand, CFleet, CNote, CSetup, CStanding, check
from .names import Code
from .ranges import LIMITS, whole_number
from .records import OpenErrand, Standing
from .texts import text_by
from .told import Account, Notice, errand_of, notice_of, standing_of

if TYPE_CHECKING:
    from .arrays import Cells

# An array of the caller's
R = TypeVar("R")


class Views:
    """The calls of nashirudder.h that only look at a fleet."""

    _library: Any
    _lock: threading.Lock
    _fleet: CFleet
    _count: int

    def _call(self, name: str, *arguments: Any) -> int:
        with self._lock:
            code: int = getattr(self._library, "nashirudder_" + name)(byref(self._fleet), *arguments)
            return code

    def _number_or(self, nothing: Code, name: str, kind: Any, *arguments: int) -> Optional[int]:
        """The number that a call tells, or None at the code that says that there is none."""
        told = kind()
        code = self._call(name, *arguments, byref(told))
        if code == nothing:
            return None
        check(code)
        return int(told.value)

    def _number(self, name: str, kind: Any, *arguments: int) -> int:
        """The number that a call tells."""
        told = kind()
        check(self._call(name, *arguments, byref(told)))
        return int(told.value)

    @overload
    def placement(self) -> "Cells":
        ...

    @overload
    def placement(self, out: R) -> R:
        ...

    def placement(self, out: Any = None) -> Any:
        """Each robot's cell, by the robot's number: an array of `numpy.uint32`, or a list if NumPy is not there.

        With `out`, an array of your own of unsigned numbers of 32 bits with one place for each robot (of NumPy, or
        `array.array("I", ..)`), the cells are written there, without a copy, and it is returned.
        """
        told = new_cells(self._count) if out is None else out
        check(self._call("placement", room_in(told, ctypes.c_uint32, self._count), self._count))
        return without_array(told) if out is None else out

    def standings(self) -> List[Standing]:
        """How each robot stands, by the robot's number."""
        told = (CStanding * self._count)()
        check(self._call("standings", told, self._count))
        return [standing_of(one) for one in told]

    def standings_into(self, out: R) -> R:
        """The same, into an array of your own with one place for each robot, without a copy: of NumPy with
        `dtype=STANDING`, or any other of as many bytes. Returns it.

        `goal` is NOWHERE, and `wait` 0, where a robot has no errand; `state` is 1 for "free", 2 for "busy", 3 for
        "shut".
        """
        check(self._call("standings", room_in(out, CStanding, self._count), self._count))
        return out

    def _errands(self, name: str, number: int) -> List[OpenErrand]:
        """The errands that a call lists."""
        count = ctypes.c_size_t(16)
        while True:
            told = (CErrand * max(1, count.value))()
            code = self._call(name, number, told, len(told), byref(count))
            if code != Code.WRONG_LENGTH:
                check(code)
                return [errand_of(one) for one in told[: count.value]]

    def queue(self, robot: int) -> List[OpenErrand]:
        """The robot's errands, in the order of its queue. Raises Refused with "no-robot"."""
        return self._errands("queue", whole_number("robot", robot))

    def open_errands(self, client: int = 0) -> List[OpenErrand]:
        """The client's errands that are accepted, and neither done nor withdrawn: by robot, and then by place in its
        queue. Raises Refused with "no-client".
        """
        return self._errands("open_errands", whole_number("client", client))

    def clock(self) -> int:
        """The number of ticks made so far."""
        return self._number("clock", ctypes.c_uint64)

    def wait_of(self, robot: int) -> Optional[int]:
        """How many ticks the robot has waited for its next arrival, or None if it has no errand. Raises Refused with
        "no-robot".
        """
        return self._number_or(Code.IDLE, "wait_of", ctypes.c_uint64, whole_number("robot", robot))

    def eldest(self) -> Optional[int]:
        """The robot that has waited longest, the least number on a tie, or None if no robot has an errand."""
        return self._number_or(Code.IDLE, "eldest", ctypes.c_uint32)

    def is_idle(self) -> bool:
        """Whether no robot has an errand."""
        return bool(self._number("is_idle", ctypes.c_bool))

    def idle_within(self) -> Optional[int]:
        """The number of ticks within which no robot has an errand any more if none is added, or None on a map with a
        bridge.
        """
        return self._number_or(Code.HAS_BRIDGE, "idle_within", ctypes.c_uint64)

    def is_bridgeless(self) -> bool:
        """Whether the map has no bridge: an edge whose removal separates its two cells."""
        return bool(self._number("is_bridgeless", ctypes.c_bool))

    def longest_wait(self) -> Optional[int]:
        """How many ticks that robot has waited, or None if no robot has an errand."""
        return self._number_or(Code.IDLE, "longest_wait", ctypes.c_uint64)

    def wait_limit(self) -> Optional[int]:
        """A number of ticks that no wait reaches, whatever is ordered, or None on a map with a bridge."""
        return self._number_or(Code.HAS_BRIDGE, "wait_limit", ctypes.c_uint64)

    def robots(self) -> int:
        """How many robots there are."""
        return self._number("robots", ctypes.c_size_t)

    def clients(self) -> int:
        """How many clients there are."""
        return self._number("clients", ctypes.c_size_t)

    def limits(self) -> Dict[str, int]:
        """The limits, by the names that the constructor takes."""
        setup = CSetup()
        check(self._call("limits", byref(setup)))
        return {name: getattr(setup, name) for name in LIMITS}

    def pending_count(self, client: int = 0) -> int:
        """How many notices the client was not given yet. Raises Refused with "no-client"."""
        return self._number("pending_count", ctypes.c_uint64, whole_number("client", client))

    def account_of(self, client: int = 0) -> Account:
        """What the client has, and had. Raises Refused with "no-client"."""
        told = CAccount()
        check(self._call("account_of", whole_number("client", client), byref(told)))
        return Account(told.taken, told.owed, told.pending, told.room)

    def peek(self, client: int = 0) -> Optional[Notice]:
        """What `give` would return: the notice stays in the mailbox. Raises Refused with "no-client"."""
        note = CNote()
        code = self._call("peek", whole_number("client", client), byref(note))
        if code == Code.NO_NOTICE:
            return None
        check(code)
        return notice_of(note)

    def trace(self) -> str:
        """The trace of the present chapter (docs/TRACE.md), without a line feed at its end."""
        return text_by(lambda *room: self._call("trace", *room))

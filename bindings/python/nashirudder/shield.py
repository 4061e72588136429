"""A shield for any policy: a step without conflicts of what each robot prefers."""

import ctypes
import threading
from ctypes import byref
from typing import TYPE_CHECKING, Any, Optional, TypeVar, Union

from .arrays import is_over, lent_cells, lent_rows, new_cells, room_in, without_array
from .calls import CFault, CShield, check, load
from .finding import Place
from .map_handle import Map
from .opening import MapText
from .ranges import whole_number
from .uncopied import Uncopied

if TYPE_CHECKING:
    from .arrays import Cells, Numbers, Room, Rows

S = TypeVar("S", bound="Shield")


class Shield(Uncopied):
    """A shield for any policy: one step of any number of robots without conflicts, from what each robot prefers.

        shield = Shield(Path("site.map"), robots=3)
        cells = shield.step([0, 2, 5], order=[2, 0, 1], preferences=[[1, 0], [1], [4, 6]])

    `map` is a `Map`, the text of a .map file, or a `pathlib.Path` of one. Raises Refused with the map's first fault,
    NoMemory, and Missing if the library is not found. Any thread may call; calls are made one after the other. After
    `close` each call is refused with "not-open", and so it is after the map was closed.
    """

    def __init__(self, map: Union[Map, MapText], robots: int, *, built: Optional[Place] = None) -> None:
        self._lock = threading.Lock()
        self.robots = whole_number("robots", robots)
        self.map = map if isinstance(map, Map) else Map(map, built=built)
        self._library = load(built)
        self._shield = CShield()
        with self.map._lock:
            check(self._library.nashirudder_shield_open(byref(self.map._map), self.robots, byref(self._shield)))

    def close(self) -> None:
        """Frees what the shield owns, but not its map. Later calls of `close` do nothing."""
        with self._lock:
            self._library.nashirudder_shield_close(byref(self._shield))

    def __enter__(self: S) -> S:
        return self

    def __exit__(self, *_: object) -> None:
        self.close()

    def __del__(self) -> None:
        if getattr(self, "_shield", None) is not None:
            self.close()

    def step(self, cells: "Numbers", order: "Numbers", preferences: "Rows", out: Optional["Room"] = None) -> Any:
        """Where each robot goes from its cell in `cells`: no two robots come to one cell, no two exchange their cells, and
        each stays or goes to a neighbour, whatever is preferred.

        `order` has the number of each robot once, the first to be planned first. `preferences` has a row for each robot: its
        own cell and neighbours of it, the best first. Each robot tries its own cell last, and a row may be shorter than
        others. Lists, or arrays: those of `numpy.uint32` whose items lie side by side, and that can be written, are not
        copied.

        Returns `out`, an array of as many `numpy.uint32` as there are robots, which may be `cells`; without it a new array, or
        a list if NumPy is not there. Raises Refused with the first fault, and the robots and places that it names in
        `numbers`: "shield-length", "shield-outside", "shield-wall", "shield-shared", "shield-unknown", "shield-twice" or
        "shield-far"; and OutOfRange if an item is no number from 0 to 2^32 - 1. `out` stays as it was then.
        """
        told = new_cells(self.robots) if out is None else out
        to = room_in(told, ctypes.c_uint32, self.robots)
        rows, each = lent_rows("a preference", preferences, cells)
        given = [lent_cells("a cell", cells), lent_cells("a robot of the order", order), rows]
        start, ranks, wishes = (type(it).from_buffer_copy(it) if is_over(it, to) else it for it in given)
        fault = CFault()
        with self._lock, self.map._lock:
            code = self._library.nashirudder_shield_step(
                byref(self.map._map), byref(self._shield), start, len(cells), ranks, len(order), each, wishes,
                len(preferences) * each, to, self.robots, byref(fault))
        check(code, fault)
        return without_array(told) if out is None else out

"""A map that is read once, for any number of questions about it."""

import ctypes
import threading
from ctypes import byref
from typing import TYPE_CHECKING, Any, Optional, Tuple, TypeVar

from .arrays import c_cells, new_cells, room_in, without_array
from .calls import CEdge, CFault, CMap, CShape, check, load
from .finding import Place
from .names import Code
from .opening import MapText, map_text
from .ranges import whole_number
from .uncopied import Uncopied

if TYPE_CHECKING:
    from .arrays import Cells, Numbers


M = TypeVar("M", bound="Map")


class Map(Uncopied):
    """A map, read once: the functions of this package that take a map's text read it at each call.

    `text` is the text of a .map file, or a `pathlib.Path` of one. Raises Refused with the map's first fault ("map-header",
    "map-size", "map-row", "map-cell" or "map-trailing"), NoMemory, and Missing if the library is not found. Any thread
    may call; calls are made one after the other. After `close` each call is refused with "not-open".

    `height` and `width` are 1 to 1,024. `cells` is height times width, `floor` how many of them are floor, and `edges`
    the number of pairs of floor cells that share a side.
    """

    def __init__(self, text: MapText, *, built: Optional[Place] = None) -> None:
        self._library = load(built)
        self._lock = threading.Lock()
        self._map = CMap()
        read, fault, shape = map_text(text), CFault(), CShape()
        check(self._library.nashirudder_map_open(read, len(read), byref(self._map), byref(fault)), fault)
        check(self._call("map_shape", byref(shape)))
        self.height, self.width, self.cells = int(shape.height), int(shape.width), int(shape.cells)
        self.floor, self.edges = int(shape.floor), int(shape.edges)

    def _call(self, name: str, *arguments: Any) -> int:
        with self._lock:
            code: int = getattr(self._library, "nashirudder_" + name)(byref(self._map), *arguments)
            return code

    def close(self) -> None:
        """Frees what the map owns. Later calls of `close` do nothing."""
        with self._lock:
            self._library.nashirudder_map_close(byref(self._map))

    def __enter__(self: M) -> M:
        return self

    def __exit__(self, *_: object) -> None:
        self.close()

    def __del__(self) -> None:
        if getattr(self, "_map", None) is not None:
            self.close()

    def floor_cells(self) -> "Cells":
        """The cells that are floor, in their order: `floor` of them. The library writes them into the array, without a copy."""
        told, count = new_cells(self.floor), ctypes.c_size_t()
        check(self._call("map_floor", room_in(told, ctypes.c_uint32, self.floor), self.floor, byref(count)))
        return without_array(told)

    def joins(self, one: int, other: int) -> bool:
        """Whether both cells are floor, and a walk joins them. Cells are any numbers from 0 to 2^32 - 1."""
        told = ctypes.c_bool()
        check(self._call("map_joins", whole_number("a cell", one), whole_number("a cell", other), byref(told)))
        return bool(told.value)

    def check_step(self, before: "Numbers", after: "Numbers") -> None:
        """As the function `check_step`, but that it raises no fault of the map."""
        fault = CFault()
        cells = c_cells("a cell before the step", before), c_cells("a cell after the step", after)
        check(self._call("map_check_step", cells[0], len(before), cells[1], len(after), byref(fault)), fault)

    def first_bridge(self) -> Optional[Tuple[int, int]]:
        """As the function `first_bridge`."""
        edge = CEdge()
        code = self._call("map_first_bridge", byref(edge))
        if code == Code.NO_BRIDGE:
            return None
        check(code)
        return edge.lower, edge.upper

    def distances(self, goal: int) -> "Cells":
        """As the function `distances`: `cells` numbers. Raises Refused with "goal-blocked"."""
        told = new_cells(self.cells)
        check(self._call("map_distances", whole_number("goal", goal), room_in(told, ctypes.c_uint32, self.cells), self.cells))
        return without_array(told)

    def unroomy(self, robots: int) -> "Cells":
        """The floor cells that are not roomy for this many robots, in their order: errands there may block a fleet of
        them for ever (docs/GLOSSARY.md, "roomy").
        """
        number, count = whole_number("robots", robots), ctypes.c_size_t()
        code = self._call("map_unroomy", number, (ctypes.c_uint32 * 1)(), 0, byref(count))
        if code != Code.WRONG_LENGTH:
            check(code)
        told = new_cells(count.value)
        check(self._call("map_unroomy", number, room_in(told, ctypes.c_uint32, count.value), count.value, byref(count)))
        return without_array(told)

    def served_for(self) -> int:
        """The greatest number of robots for which errands to all floor cells arrive, if they take turns
        (`Handle.take_turns`).
        """
        robots = ctypes.c_uint32()
        check(self._call("map_served_for", byref(robots)))
        return robots.value

"""Questions about a map, without a fleet. A map is the text of a .map file, or a `pathlib.Path` of
one.
"""

import ctypes
from ctypes import byref
from typing import TYPE_CHECKING, Optional, Tuple

from .arrays import as_cells, c_cells
from .calls import CEdge, CFault, check, load
from .finding import Place
from .names import Code
from .opening import MapText, Text, map_text, sides_of, text_of
from .ranges import whole_number

if TYPE_CHECKING:
    from .arrays import Cells, Numbers

def check_step(map: MapText, before: "Numbers", after: "Numbers", *, built: Optional[Place] = None) -> None:
    """Returns if the step is free of conflicts: each robot stays or crosses an edge, no two come to one cell, and no
    two exchange their cells.

    `before` and `after` have the robots' cells, by number: lists, or arrays with one dimension. Otherwise Refused is
    raised with the first fault, and the robots in `numbers`: "too-many", "from-blocked", "from-shared", "to-length",
    "off-floor", "not-adjacent", "vertex-conflict" or "swapping-conflict"; or with a fault of the map. Raises OutOfRange
    if a cell is no number from 0 to 2^32 - 1.
    """
    library, text, fault = load(built), map_text(map), CFault()
    cells = c_cells("a cell before the step", before), c_cells("a cell after the step", after)
    code = library.nashirudder_check_step(text, len(text), cells[0], len(before), cells[1], len(after), byref(fault))
    check(code, fault)


def judge(map: MapText, trace: Text, *, built: Optional[Place] = None) -> None:
    """Returns if the text is the trace of a chapter that is legal on the map.

    Otherwise Refused is raised: with a fault of the map, "trace-not-json", "trace-version", "trace-shape", or
    "chapter-illegal" with the first entry that breaks a rule, from 1, and that rule, in `numbers` (docs/TRACE.md).
    """
    library, texts, fault = load(built), (map_text(map), text_of(trace)), CFault()
    check(library.nashirudder_judge(texts[0], len(texts[0]), texts[1], len(texts[1]), byref(fault)), fault)


def first_bridge(map: MapText, *, built: Optional[Place] = None) -> Optional[Tuple[int, int]]:
    """The two cells of a bridge, the lower one first, or None if the map has none.

    Of several bridges it is the one whose lower cell is least, and then the one whose upper cell is least. Raises
    Refused with a fault of the map.
    """
    library, text, edge, fault = load(built), map_text(map), CEdge(), CFault()
    code = library.nashirudder_first_bridge(text, len(text), byref(edge), byref(fault))
    if code == Code.NO_BRIDGE:
        return None
    check(code, fault)
    return edge.lower, edge.upper


def distances(map: MapText, goal: int, *, built: Optional[Place] = None) -> "Cells":
    """For each cell of the map, row by row, the number of edges of a shortest walk to the goal, or FAR (2^32 - 1) if
    there is none.

    Returns an array of `numpy.uint32` with height times width items, or a list if NumPy is not there. Raises Refused
    with a fault of the map, or "goal-blocked" if the goal is not floor or not on the map.
    """
    library, text, fault = load(built), map_text(map), CFault()
    height, width = sides_of(text)
    count = height * width
    told = (ctypes.c_uint32 * max(1, count))()
    code = library.nashirudder_distances(text, len(text), whole_number("goal", goal), told, count, byref(fault))
    check(code, fault)
    return as_cells(told)

"""Orders of a `Handle` that are taken one after the other, in one call."""

import ctypes
from ctypes import byref
from typing import TYPE_CHECKING, Any, Callable, Optional, Sequence, Tuple, Union

from .arrays import c_cells, room_in
from .asked import GO, AnyOrder
from .calls import CJudgement, COrder, check
from .errors import NoMemory, OutOfRange, Refused
from .names import Code
from .ranges import whole_number
from .told import Taken, judgement_of

if TYPE_CHECKING:
    from .arrays import Numbers, Room

# What a list of orders ended with
Ending = Union[Refused, NoMemory, None]


class Batches:
    """The call nashirudder_take_many, by lists and by arrays."""

    _call: Callable[..., int]

    def _taken(self, orders: Any, judgements: Any, length: int) -> Tuple[int, Ending]:
        """How many of the orders were taken, and what refused the next one."""
        count = ctypes.c_size_t()
        try:
            check(self._call("take_many", orders, length, judgements, length, byref(count)))
        except (Refused, NoMemory) as why:
            if isinstance(why, Refused) and why.code == Code.NOT_OPEN:
                raise
            return count.value, why
        return count.value, None

    def take_many(self, orders: Sequence[AnyOrder]) -> Taken:
        """Takes orders one after the other, each as by `go` and its like, until one is refused.

        Returns a judgement of each that was taken, and what it ended with, if it did: Refused as `go` raises it, or
        NoMemory. Raises Refused with "not-open" if the handle is closed.
        """
        told = (CJudgement * max(1, len(orders)))()
        asked = (COrder * max(1, len(orders)))(*(order._in_c() for order in orders))
        count, refused = self._taken(asked, told, len(orders))
        return Taken([judgement_of(told[at]) for at in range(count)], refused)

    def take_into(self, orders: "Room", judgements: "Room") -> Tuple[int, Ending]:
        """The same by arrays of your own, without a copy: of NumPy with `dtype=ORDER` and `dtype=JUDGEMENT`, or any
        others of as many bytes. Both are to be arrays that can be written; the orders are only read.

        Returns how many orders were taken, and what it ended with, if it did. That many judgements are written; the
        others stay as they were. A `kind` is 1 for go, 2 for close, 3 for withdraw, and a `verdict` is as in `Verdict`.
        """
        length = len(orders)
        asked, told = room_in(orders, COrder, length), room_in(judgements, CJudgement, length)
        return self._taken(asked, told, length)

    def go_many(self, robots: "Numbers", cells: "Numbers", client: int = 0) -> Taken:
        """The client orders each of these robots to the cell at the same place of the other list, one after the other.
        Lists, or arrays of `numpy.uint32`. Returns and raises as `take_many`, and OutOfRange if one list is longer.
        """
        if len(robots) != len(cells):
            raise OutOfRange(f"there are {len(robots)} robots and {len(cells)} cells")
        number, length = whole_number("client", client), len(robots)
        asked, told = (COrder * max(1, length))(), (CJudgement * max(1, length))()
        pairs = zip(c_cells("a robot", robots), c_cells("a cell", cells))
        for order, (robot, cell) in zip(asked[:length], pairs):
            order.kind, order.client, order.robot, order.cell = GO, number, robot, cell
        count, refused = self._taken(asked, told, length)
        return Taken([judgement_of(told[at]) for at in range(count)], refused)

"""What both classes named `Fleet` have: the same names, arguments and exceptions."""

import abc
import ctypes
from typing import TYPE_CHECKING, Any, Callable, List, Optional, TypeVar, Union, overload

from .arrays import as_cells, room_in
from .closing import Closing
from .errors import FileFailed, NoMemory, OutOfRange, Refused
from .names import Verdict
from .orders import Errand, Ledger, Order, need_own
from .ranges import whole_number
from .records import Arrival, Chapter, Farewell, Look, OpenErrand, Standing
from .turns import OwnTurns, Turns

if TYPE_CHECKING:
    from .arrays import Cells, Numbers

T = TypeVar("T")
# An array of the caller's
R = TypeVar("R")

MOST_TICKS = 1_000_000
# How many ticks a program is asked for at once: after these an interrupted call stops.
TICKS_AT_ONCE = 1_000


class AnyFleet(Closing):
    """A fleet that stands still until `tick` is called: `nashirudder.Fleet` over pipes, and `nashirudder.library.Fleet`
    in this process.

    Any thread may call any method: calls are made one after the other. A call that is left by an exception, as Ctrl-C
    raises it, is made all the same; but `tick` stops between two ticks, over pipes within 1,000. In a process that was forked
    after the fleet was opened each call raises Ended, but `close`, which does nothing there. Numbers that are passed are whole ones from 0 to 2^32 - 1, or the call raises
    OutOfRange and does nothing. Each call raises Late if it takes longer than the fleet's `timeout`, Ended once the
    fleet is closed or its program ended, FileFailed if a full chapter cannot be written to `traces`, and NoMemory.
    """

    def __init__(self, timeout: Optional[float], turns: Union[Turns, OwnTurns]) -> None:
        super().__init__()
        self._timeout = timeout
        self._turns = turns
        self._ledger = Ledger()
        self._arrivals: List[Arrival] = []
        self._farewells: List[Farewell] = []
        self._cells: List[int] = []

    # ---- what each class does in its own way

    @abc.abstractmethod
    def _post(self, order: Order) -> None:
        """Puts an order on its client's lane. Raises Refused with "lane-full" or "no-client"."""

    @abc.abstractmethod
    def _take(self, client: int) -> None:
        """Has a client's orders judged as long as there is room. Raises Refused if the next one cannot be judged now
        for another reason.
        """

    @abc.abstractmethod
    def _waiting_clients(self) -> List[int]:
        """The clients that have orders which are not judged."""

    @abc.abstractmethod
    def _make_ticks(self, count: int) -> None:
        """Makes ticks, and adds to `_arrivals` and `_farewells`; `_cells` are those after the last one."""

    @abc.abstractmethod
    def _make_shut(self, robot: int) -> None:
        """Shuts a robot, and adds to `_farewells`."""

    @abc.abstractmethod
    def _look_now(self) -> Look:
        """How the fleet stands."""

    @abc.abstractmethod
    def _standings_now(self) -> List[Standing]:
        """How the robots stand."""

    @abc.abstractmethod
    def _queue_now(self, robot: int) -> List[OpenErrand]:
        """A robot's errands. Raises Refused with "no-robot"."""

    @abc.abstractmethod
    def _errands_now(self, client: int) -> List[OpenErrand]:
        """A client's open errands. Raises Refused with "no-client"."""

    @abc.abstractmethod
    def _turn_page(self) -> Chapter:
        """Begins the next chapter."""

    @abc.abstractmethod
    def close(self, timeout: Optional[float] = None) -> None:
        """Ends the fleet: its last chapter is written if `traces` was given, and all that it owns is freed. Later calls
        do nothing.

        Raises FileFailed if that chapter could not be written, and Late if it takes longer than `timeout` seconds (the
        fleet's `timeout`, if none are given). The fleet is closed all the same.
        """

    @property
    @abc.abstractmethod
    def status(self) -> Optional[int]:
        """None until the fleet is closed. Then 0, or 8 if an order, a tick or a shut was refused with "clock-spent" or
        "chapter-full", or 3 if a chapter could not be written; over pipes it is the program's exit status
        (docs/PROTOCOL.md).
        """

    def _in_turn(self, call: Callable[[], T]) -> T:
        """Makes a call while no other one is made, and whole whatever happens to the caller."""
        return self._turns.make(call, self._timeout)

    # ---- orders

    def _take_orders(self, client: int) -> None:
        self._in_turn(lambda: self._take(client))

    def _go(self, errand: Errand) -> Errand:
        self._post(errand)
        try:
            self._take(errand.client)
        except (Refused, FileFailed, NoMemory):
            # The order stands. `accepted` tries again, and says why it is not judged.
            pass
        return errand

    def go(self, robot: int, cell: int, client: int = 0) -> Errand:
        """Asks a robot to come to a cell, after the errands that it has. Returns the errand; its verdict is what
        `accepted` of it says.

        Raises Refused with "lane-full" if the client has as many orders that are not judged as its `lane` holds (64, or more: see the class),
        with "no-client", or, with `roomy`, with "no-room"; then nothing was posted. A robot or cell that there is not is no refusal of this call, but
        of the order.
        """
        errand = Errand(self, whole_number("client", client), whole_number("robot", robot), whole_number("cell", cell))
        return self._in_turn(lambda: self._go(errand))

    def go_many(self, robots: "Numbers", cells: "Numbers", client: int = 0) -> List[Errand]:
        """Asks each of these robots to come to the cell at the same place of the other list, one after the other, each as
        by `go`. Lists, or arrays. Returns the errands.

        Raises as `go`, and OutOfRange if one list is longer, before anything is posted; after Refused the orders before
        the refused one stand.
        """
        if len(robots) != len(cells):
            raise OutOfRange(f"there are {len(robots)} robots and {len(cells)} cells")
        number = whole_number("client", client)
        errands = [
            Errand(self, number, whole_number("robot", robot), whole_number("cell", cell))
            for robot, cell in zip(robots, cells)
        ]
        return self._in_turn(lambda: [self._go(errand) for errand in errands])

    def _carry_out(self, order: Order, wanted: Verdict) -> None:
        """Posts an order that is judged at once, and raises OrderRefused if its verdict is another one."""
        self._post(order)
        self._take(order.client)
        order._expect(wanted)

    def _withdraw(self, errand: Errand) -> None:
        if errand._verdict is None:
            self._take(errand.client)
        order = Order(errand.client, "withdraw", errand._accepted(), withdraws=errand)
        self._carry_out(order, Verdict.WITHDRAWN)

    def withdraw(self, errand: Errand) -> None:
        """Takes back an errand that its robot is not heading for yet. Its state is "withdrawn" then.

        Raises OrderRefused with "too-late" if the robot is heading for it, "no-errand" if it has arrived or was
        withdrawn before, or "client-closed"; as `Errand.accepted` if the errand was not accepted; and Refused with
        "lane-full". Raises Waiting if the mailbox has no room for this verdict, and Refused with "chapter-full" as
        `Errand.accepted` does: then the order stands, and later calls and ticks try again. Raises OutOfRange if it is
        an errand of another fleet.
        """
        need_own(errand, self)
        self._in_turn(lambda: self._withdraw(errand))

    def close_client(self, client: int = 0) -> None:
        """No order of this client is accepted any more; errands that it has are done all the same.

        Raises OrderRefused with "client-closed" if it was closed before, Refused with "no-client" or "lane-full", and
        Waiting as `withdraw` does.
        """
        order = Order(whole_number("client", client), "close")
        self._in_turn(lambda: self._carry_out(order, Verdict.CLOSED))

    # ---- shuts and ticks

    def _shut(self, robot: int) -> Optional[Farewell]:
        self._farewells = []
        self._make_shut(robot)
        return self._farewells[0] if self._farewells else None

    def shut(self, robot: int) -> Optional[Farewell]:
        """A robot finishes its errands and gets no more. Returns its farewell if it has none, else None: then a tick
        has it.

        Raises Refused with "no-robot" or "already-shut", or with "chapter-full" if the chapter has no room for it and
        is not followed by the next.
        """
        robot = whole_number("robot", robot)
        return self._in_turn(lambda: self._shut(robot))

    def _tick(self, count: int) -> List[int]:
        for client in self._waiting_clients():
            self._take(client)
        self._arrivals, self._farewells = [], []
        self._make_ticks(count)
        return list(self._cells)

    def tick(self, count: int = 1) -> List[int]:
        """Moves every robot by `count` steps, 1 to 1,000,000, and returns the robots' cells, by number. Orders that
        wait are judged before.

        `arrivals` and `farewells` then have what happened in all of them. Raises Refused with "clock-spent", or with
        "chapter-full" if a chapter is full and is not followed by the next (with `roll` off, or if it is the last). The
        ticks before a refused one were made: `arrivals`, `farewells`, `cells` and `look` have them.
        """
        count = whole_number("the number of ticks", count, least=1, most=MOST_TICKS)
        return self._in_turn(lambda: self._tick(count))

    # ---- views

    @property
    def arrivals(self) -> List[Arrival]:
        """The arrivals of the last call of `tick`, by tick and then by robot."""
        return list(self._arrivals)

    @property
    def farewells(self) -> List[Farewell]:
        """The farewells of the last call of `tick` or `shut`, by tick and then by robot."""
        return list(self._farewells)

    @property
    def cells(self) -> List[int]:
        """Where the robots stand after the last tick, by the robot's number: a list."""
        return list(self._cells)

    @overload
    def placement(self) -> "Cells":
        ...

    @overload
    def placement(self, out: R) -> R:
        ...

    def placement(self, out: Any = None) -> Any:
        """What `cells` has, as an array of `numpy.uint32` with one item for each robot; as a list if NumPy is not
        there. With `out`, an array of your own of unsigned numbers of 32 bits with one place for each robot, they are
        written there, and it is returned.
        """
        if out is None:
            return as_cells(self._cells)
        cells = self._cells
        room_in(out, ctypes.c_uint32, len(cells))[:] = cells
        return out

    def look(self) -> Look:
        """How the fleet stands. It changes nothing."""
        return self._in_turn(self._look_now)

    def standings(self) -> List[Standing]:
        """How each robot stands, by the robot's number: its cell, its goal, how many errands it has, how long it has
        waited, and whether it is free, busy or shut. It changes nothing.
        """
        return self._in_turn(self._standings_now)

    def queue(self, robot: int) -> List[OpenErrand]:
        """The robot's errands, in the order of its queue. It changes nothing. Raises Refused with "no-robot"."""
        robot = whole_number("robot", robot)
        return self._in_turn(lambda: self._queue_now(robot))

    def open_errands(self, client: int = 0) -> List[OpenErrand]:
        """The client's errands that are accepted, and neither done nor withdrawn: by robot, and then by place in its
        queue. It changes nothing. Raises Refused with "no-client".
        """
        client = whole_number("client", client)
        return self._in_turn(lambda: self._errands_now(client))

    def chapter(self) -> Chapter:
        """Ends the present chapter, which is written if `traces` was given, and begins the next. Returns the one that
        ended.

        Raises Refused with "book-spent" if it is the last of all `chapters`, and FileFailed if it cannot be written:
        over pipes the fleet has ended then, and in this process the chapter goes on.
        """
        return self._in_turn(self._turn_page)

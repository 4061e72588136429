"""Orders of clients, and what became of them."""

import contextlib
from typing import TYPE_CHECKING, Any, Dict, Generator, List, Optional, Tuple, cast

from .errors import OutOfRange, Refused, Waiting, order_refusal
from .names import Verdict
from .records import Arrival

if TYPE_CHECKING:
    import asyncio


def _wake(future: "asyncio.Future[None]") -> None:
    if not future.done():
        future.set_result(None)


class Order:
    """An order of a client: "go", "withdraw" or "close", with its numbers, and its verdict once it is judged."""

    def __init__(self, client: int, kind: str, *numbers: int, withdraws: "Optional[Order]" = None) -> None:
        self.client = client
        self._kind = kind
        self._numbers = numbers
        self._withdraws = withdraws
        self._verdict: Optional[Verdict] = None
        self._number: Optional[int] = None
        self._arrival: Optional[Arrival] = None
        self._is_withdrawn = False
        # Of a fleet in real time: whether it was posted, or has to be; or why it was not
        self._is_posted = False
        self._refusal: Optional[Refused] = None
        # Those who await it
        self._waiters: "List[Tuple[asyncio.AbstractEventLoop, asyncio.Future[None]]]" = []

    def _tell(self) -> None:
        """Lets those who await it look again. Any thread may call."""
        waiters, self._waiters = self._waiters, []
        for loop, future in waiters:
            # A loop that is closed has nobody who waits.
            with contextlib.suppress(RuntimeError):
                loop.call_soon_threadsafe(_wake, future)

    @property
    def _line(self) -> str:
        """The order as a line of the protocol, without its client."""
        return " ".join([self._kind, *map(str, self._numbers)])

    def _expect(self, wanted: Verdict) -> None:
        """Raises Waiting if it is not judged yet, and OrderRefused if its verdict is another one."""
        if self._refusal is not None:
            raise self._refusal
        if self._verdict is None:
            raise Waiting("it was posted, and its client's mailbox has no room for the verdict yet")
        if self._verdict is not wanted:
            raise order_refusal(self._verdict)


class AnyErrand(Order):
    """A robot is to come to a cell, as a client asked: what both kinds of errands have.

    `await errand` waits, in an asyncio loop, until the errand is done, and returns the arrival. Others have to tick the
    fleet meanwhile, if it does not move by itself. It raises OrderRefused if the errand was refused, or withdrawn, and
    Ended if the fleet is closed or ended before.
    """

    def __init__(self, fleet: Any, client: int, robot: int, cell: int) -> None:
        super().__init__(client, "go", robot, cell)
        self._fleet = fleet
        self.robot = robot
        self.cell = cell

    def __repr__(self) -> str:
        return f"<errand of client {self.client}: robot {self.robot} to cell {self.cell}, {self.state}>"

    @property
    def state(self) -> str:
        """How far it has come: "posted" (not judged yet), "refused", "accepted", "withdrawn" or "arrived". It asks
        nothing of the fleet.
        """
        if self._arrival is not None:
            return "arrived"
        if self._is_withdrawn:
            return "withdrawn"
        if self._refusal is not None:
            return "refused"
        if self._verdict is None:
            return "posted"
        return "accepted" if self._verdict is Verdict.ACCEPTED else "refused"

    def __await__(self) -> Generator[Any, None, Arrival]:
        return self._done().__await__()

    async def _done(self) -> Arrival:
        """The arrival, once the errand is done."""
        import asyncio

        loop = asyncio.get_running_loop()
        self._fleet._awaited.add(self)
        while self.state in ("posted", "accepted"):
            future = loop.create_future()
            self._waiters.append((loop, future))
            # It may have been told just before.
            if self.state not in ("posted", "accepted"):
                break
            ended = self._fleet._why_over()
            if ended is not None:
                raise ended
            await future
        self._expect(Verdict.ACCEPTED)
        return cast(Arrival, self._come())

    def _accepted(self) -> int:
        """Its number. Raises as `_expect`."""
        self._expect(Verdict.ACCEPTED)
        return self._number or 0

    def _come(self) -> Optional[Arrival]:
        """The arrival, if there is one. Raises OrderRefused if it was withdrawn."""
        if self._is_withdrawn:
            raise order_refusal(Verdict.WITHDRAWN)
        return self._arrival


class Errand(AnyErrand):
    """A robot is to come to a cell, as a client asked.

    `client`, `robot` and `cell` are the numbers that `go` was given.
    """

    def accepted(self) -> int:
        """The errand's number among its client's accepted ones, from 1.

        Raises OrderRefused with the verdict's name if it was refused: "client-closed", "no-robot", "robot-shut",
        "no-cell", "blocked", "unreachable", "queue-full" or "life-spent". Raises Waiting if its client's mailbox has no
        room for the verdict before errands are done, and Refused with "chapter-full" if it cannot be judged before the
        next chapter (with `roll` off, or in the last of all chapters). Later calls, and ticks, try again. Raises Late,
        and Ended if the fleet is closed or ended before.
        """
        if self._verdict is None:
            self._fleet._take_orders(self.client)
        return self._accepted()

    def arrived(self) -> Optional[Arrival]:
        """The arrival, or None while the robot is on its way.

        Raises as `accepted` does, and OrderRefused with "withdrawn" if it was withdrawn.
        """
        if self._verdict is None:
            self.accepted()
        self._expect(Verdict.ACCEPTED)
        return self._come()


class Ledger:
    """The errands of a fleet that were accepted and are not done, by client and number."""

    def __init__(self) -> None:
        self._under_way: Dict[Tuple[int, int], Order] = {}

    def judged(self, order: Order, verdict: Verdict, number: Optional[int]) -> None:
        """Notes an order's verdict."""
        if verdict is Verdict.ACCEPTED and number is not None:
            self._under_way[order.client, number] = order
        if verdict is Verdict.WITHDRAWN and order._withdraws is not None:
            self._under_way.pop((order.client, order._numbers[0]), None)
            order._withdraws._is_withdrawn = True
            order._withdraws._tell()
        order._number = number
        order._verdict = verdict
        order._tell()

    def arrived(self, arrival: Arrival) -> None:
        """Notes an arrival."""
        errand = self._under_way.pop((arrival.client, arrival.number), None)
        if errand is not None:
            errand._arrival = arrival
            errand._tell()

    def __len__(self) -> int:
        return len(self._under_way)


def need_own(errand: Any, fleet: Any) -> None:
    """Raises OutOfRange if this is no errand of this fleet: the number of one of another fleet would name a wrong one
    here.
    """
    if getattr(errand, "_fleet", None) is not fleet:
        raise OutOfRange(f"no errand of this fleet: {errand!r}")

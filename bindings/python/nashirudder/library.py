"""Fleets in this process, over the library that `tools/build_c` builds; and the calls of nashirudder.h one by one.

    from nashirudder.library import Fleet

`Fleet` has the names, arguments and exceptions of `nashirudder.Fleet`, so that a program runs with either. `Handle` has
the calls of nashirudder.h. `Map`, `check_step`, `first_bridge` and `distances` are questions about a map, and `judge`
is one about a map and a chapter. `Execution` carries out the plan of any planner with robots that are not in step.
`Shield` makes a step without conflicts of what any policy wants.
`nashirudder.finding` says where the library is looked for.
"""

import os
from collections import deque
from typing import Callable, Deque, Dict, FrozenSet, List, Optional, Sequence, TypeVar

from . import opening
from .arrays import JUDGEMENT, ORDER, STANDING
from .asked import CloseClient, Go, Withdraw
from .calls import FAR, NOWHERE, is_proved
from .ended import EndedChapter
from .errors import Ended, FileFailed, FleetError, NoMemory, OutOfRange, OrderRefused, Refused, refusal
from .execution import Execution, Move, Progress, Whereabouts
from .finding import Place
from .fleet import AnyFleet
from .folder import ChapterFolder
from .going_on import reopened
from .handle import Handle
from .map_handle import Map
from .maps import check_step, distances, first_bridge, judge
from .names import Code, Verdict
from .opening import Planner, Text, Ties
from .orders import Errand, Order
from .quick_calls import QuickCalls
from .records import Arrival, Chapter, Farewell, Look, OpenErrand, Standing
from .shield import Shield
from .state import Opening, OpeningClient, OpeningErrand, OpeningRobot
from .told import Account, Judgement, Notice, Report, Taken, TickRecord
from .turns import OwnTurns

__all__ = [
    "FAR", "JUDGEMENT", "NOWHERE", "ORDER", "STANDING", "Account", "Arrival", "Chapter", "CloseClient", "Code",
    "EndedChapter", "Errand", "Execution", "Farewell", "Fleet", "Go", "Handle", "Judgement", "Look", "Map", "Move", "Notice", "OpenErrand",
    "OrderRefused", "Refused", "Report", "Shield", "Standing", "Opening", "OpeningClient", "OpeningErrand", "OpeningRobot", "Taken",
    "TickRecord", "Verdict", "Withdraw", "check_step", "distances", "first_bridge", "is_proved", "judge",
]

T = TypeVar("T")

# The orders of a client that may wait to be judged, as in the program
_LANE = 64
# The library's calls of the kinds of orders
_CALLS = {"go": "go", "withdraw": "withdraw", "close": "close_client"}


class Fleet(AnyFleet):
    """A fleet in this process. It has the names, arguments and exceptions of `nashirudder.Fleet`, and the same limits
    if none are given. With `resume` it goes on from the last chapter in `traces`, also from one that `fleet talk` or
    `fleet live` kept.

    `built` is the library, or a folder that has it. `ties` is "plain": "south" is refused by OutOfRange. (A robot's own
    ranks, by which "south" chooses, are for `Handle`.) With `roomy`, as over pipes, `go` refuses an errand to a cell
    that is not roomy for the robots with "no-room". With the planner "turns" the robots take turns in dead ends, so that
    errands there arrive too (docs/PROTOCOL.md, "Turns").
    """

    def __init__(
        self,
        map: Optional[Place] = None,
        robots: Sequence[int] = (),
        clients: int = 1,
        *,
        text: Optional[Text] = None,
        ties: Ties = "plain",
        traces: Optional[Place] = None,
        resume: bool = False,
        roll: bool = True,
        roomy: bool = False,
        planner: Planner = "plain",
        built: Optional[Place] = None,
        timeout: Optional[float] = None,
        life: Optional[int] = None, orders: Optional[int] = None, clock: Optional[int] = None, lane: Optional[int] = None,
        outlet: Optional[int] = None, queue: Optional[int] = None, mailbox: Optional[int] = None,
        chapter: Optional[int] = None, chapters: Optional[int] = None,
    ) -> None:
        limits = opening.limits_in(locals())
        told = opening.checked(map, robots, clients, ties, traces, limits, text)
        if told.ties != "plain":
            raise OutOfRange(f'ties {told.ties!r} are for nashirudder.Fleet alone; in this process they are "plain"')
        opening.need_traces(told, resume)
        takes_turns = opening.checked_planner(planner)
        super().__init__(timeout, OwnTurns())
        self._roll = roll
        self._clients = told.clients
        self._lane = told.limits.get("lane", _LANE)
        self._number = self._entries = 0
        self._lanes: Dict[int, Deque[Order]] = {client: deque() for client in range(told.clients)}
        self._status: Optional[int] = None
        self._is_closed = self._is_limited = False
        self._unroomy: FrozenSet[int] = frozenset()
        self._folder = None if told.traces is None else ChapterFolder(told.traces, resume)
        try:
            kept = None if self._folder is None else self._folder.last
            if kept is None:
                limits = {**opening.ENDLESS, **told.limits}
                self._handle = Handle(told.read_map(), told.robots, told.clients, roomy=roomy, built=built, **limits)
            else:
                self._handle, self._number = reopened(told, kept, built, roomy), kept.number + 1
            if takes_turns:
                self._handle.take_turns()
            if roomy:
                with Map(told.read_map(), built=built) as of:
                    self._unroomy = frozenset(int(cell) for cell in of.unroomy(len(told.robots)))
        except BaseException:
            if self._folder is not None:
                self._folder.let_go()
            raise
        self._quick = QuickCalls(self._handle._call, len(told.robots))
        self._cells = self._quick.cells()

    # ---- what AnyFleet asks for

    def _in_turn(self, call: Callable[[], T]) -> T:
        def while_open() -> T:
            if self._is_closed:
                # By another thread, before this call's turn.
                raise Ended(self._status, "the fleet is closed")
            return call()

        if self._is_closed:
            raise Ended(self._status, "the fleet is closed")
        return self._turns.make(while_open, self._timeout)

    def _entered(self, call: Callable[[], T]) -> T:
        """Makes a call that is an entry of the history; if the chapter is full, in the next one, if there is one and
        chapters roll.
        """
        try:
            result = self._tried(call)
        except Refused as refused:
            self._is_limited = self._is_limited or refused.name in ("chapter-full", "clock-spent")
            raise
        self._entries += 1
        return result

    def _tried(self, call: Callable[[], T]) -> T:
        try:
            return call()
        except Refused as refused:
            if refused.name != "chapter-full" or not self._roll:
                raise
            full = refused
        try:
            self._turn_page()
        except Refused:
            # It was the last of all chapters.
            raise full from None
        return call()

    def _post(self, order: Order) -> None:
        if order.client not in self._lanes:
            raise refusal("no-client")
        if order._kind == "go" and order._numbers[1] in self._unroomy:
            raise refusal("no-room")
        if len(self._lanes[order.client]) >= self._lane:
            raise refusal("lane-full")
        self._lanes[order.client].append(order)

    def _take(self, client: int) -> None:
        lane, judge = self._lanes[client], self._quick.judge
        while lane:
            order = lane[0]
            try:
                verdict, number = self._entered(lambda: judge(_CALLS[order._kind], order.client, *order._numbers))
            except Refused as refused:
                if refused.name != "mailbox-full":
                    raise
                # There may be room once notices are collected that were not before.
                if not self._collect(client):
                    return
                continue
            lane.popleft()
            self._ledger.judged(order, verdict, number)
            self._collect(client)

    def _collect(self, client: int) -> bool:
        """Takes all notices of a client out of its mailbox; whether there were some. What they tell is known."""
        return self._quick.drop_notices(client)

    def _waiting_clients(self) -> List[int]:
        return [client for client, lane in self._lanes.items() if lane]

    def _make_ticks(self, count: int) -> None:
        arrived, left = self._arrivals, self._farewells
        for _ in range(count):
            if self._turns.stops():
                return
            cells, arrivals, farewells = self._entered(self._quick.tick)
            # A signal handler may have called `tick` in between: its arrivals are not those of this call.
            self._cells, self._arrivals, self._farewells = cells, arrived, left
            if farewells:
                left += [Farewell(robot, 0) for robot in farewells]
            if arrivals:
                arrived += arrivals
                for arrival in arrivals:
                    self._ledger.arrived(arrival)
                for client in {arrival.client for arrival in arrivals}:
                    self._collect(client)

    def search_one(self) -> int:
        """Searches the field of one robot's goal as far as the next tick will need it, as `Handle.search_one` does."""
        return self._in_turn(self._handle.search_one)

    def search(self, seconds: float) -> int:
        """The same until none is left or these seconds are over, as `Handle.search` does."""
        return self._in_turn(lambda: self._handle.search(seconds))

    def missing(self) -> int:
        """How many robots' fields are still to be searched before the next tick."""
        return self._in_turn(self._handle.missing)

    def _make_shut(self, robot: int) -> None:
        if self._entered(lambda: self._handle.shut(robot)):
            self._farewells.append(Farewell(robot, 0))

    def _look_now(self) -> Look:
        tick, eldest, within = self._handle.clock(), self._handle.eldest(), self._handle.idle_within()
        return Look(tick, self._number, self._entries, eldest, within, list(self._cells))

    def _standings_now(self) -> List[Standing]:
        return self._handle.standings()

    def _queue_now(self, robot: int) -> List[OpenErrand]:
        return self._handle.queue(robot)

    def _errands_now(self, client: int) -> List[OpenErrand]:
        return self._handle.open_errands(client)

    def _turn_page(self) -> Chapter:
        if self._folder is not None:
            self._folder.write(self._number, self._handle.trace())
        try:
            self._handle.next_chapter()
        except (Refused, NoMemory):
            if self._folder is not None:
                self._folder.drop(self._number)
            raise
        handed = Chapter(self._number, self._entries)
        self._number, self._entries = self._number + 1, 0
        if self._folder is not None:
            self._folder.keep(handed.number)
        return handed

    # ---- the end

    @property
    def status(self) -> Optional[int]:
        return self._status

    def _end(self) -> None:
        """Writes the last chapter, and frees all."""
        if self._is_closed:
            return
        status = 8 if self._is_limited else 0
        try:
            if self._folder is not None:
                self._folder.write(self._number, self._handle.trace())
                self._folder.keep(self._number)
        except FileFailed:
            status = 3
            raise
        finally:
            self._status, self._is_closed = status, True
            self._handle.close()
            if self._folder is not None:
                self._folder.let_go()
            self._tell_awaited()

    def _why_over(self) -> Optional[FleetError]:
        return Ended(self._status, "the fleet is closed") if self._is_closed else None

    def _is_left_open(self) -> bool:
        return hasattr(self, "_handle") and not self._is_closed and self._turns.opened_in == os.getpid()

    def _let_end(self) -> None:
        try:
            self._end()
        except FleetError:
            # Nobody is there to be told.
            pass

    def close(self, timeout: Optional[float] = None) -> None:
        if not self._is_closed and self._turns.opened_in == os.getpid():
            self._turns.make(self._end, self._timeout if timeout is None else timeout)

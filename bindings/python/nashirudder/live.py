"""A fleet that moves by itself: the program `fleet live` keeps it."""

import contextlib
import os
import threading
import weakref
from typing import List, Optional, Sequence

from . import finding, opening
from .caller import Caller, OnTick
from .conversation import Conversation
from .errors import Ended, FleetError, OutOfRange, Refused, Waiting, refusal
from .finding import Place
from .fleet import MOST_TICKS, TICKS_AT_ONCE
from .live_answers import LiveAnswers
from .live_errand import LiveErrand
from .names import Verdict
from .opening import Planner, Text, Ties
from .orders import Order, need_own
from .process import Program, silently
from .ranges import whole_number
from .records import Arrival, Farewell
from .turns import need_own_process

def _farewell_in(words: List[str]) -> Optional[Farewell]:
    """What the answer to a shut says."""
    if words[0] == "shut-refused":
        raise refusal(words[-1])
    return Farewell(int(words[1]), int(words[3])) if len(words) == 4 else None


def _cells_in(words: List[str]) -> List[int]:
    """The robots' cells that a tick line says."""
    if words[0] == "tick-refused":
        raise refusal(words[-1])
    return [int(word) for word in words[2:]]


def _is_over(fleet: "Optional[LiveFleet]") -> bool:
    """Whether there is no fleet any more that its ticks could be told."""
    return fleet is None or fleet._program.is_closed


class LiveFleet(LiveAnswers):
    """A fleet that moves by itself, a turn every `period_ms` milliseconds; without it, a turn for each `tick`. `fleet
    live` keeps it.

    Turns go on while a chapter is written. `on_tick` is called with the number of each tick and
    the robots' cells, in a thread of its own, in which it may call any method. The first call may come before the
    constructor has returned. An exception of it is reported as that of any thread, and the next tick is told all the
    same. While it is slower than the fleet, ticks are left out. A full chapter is followed by the next. With `keep_every_ms` a chapter is written to `traces` at least once in this many
    milliseconds, 0.001 to 3,600,000, so that a fleet that is killed loses no more than that. With `journal` nothing is told before it is on the disk
    of `traces`, and a fleet whose program was killed goes on by `reconnect`; `recall` is how many notices of each client can then be told again, 65,536 if not given. The other words, as `roomy` and `planner`, are those
    of `Fleet`, and so are the exceptions. Any thread may call any method.
    """

    def __init__(
        self,
        map: Optional[Place] = None,
        robots: Sequence[int] = (),
        clients: int = 1,
        *,
        period_ms: Optional[float] = None,
        on_tick: Optional[OnTick] = None,
        text: Optional[Text] = None,
        ties: Ties = "plain",
        traces: Optional[Place] = None,
        resume: bool = False,
        roomy: bool = False,
        planner: Planner = "plain",
        keep_every_ms: Optional[float] = None,
        journal: bool = False,
        recall: Optional[int] = None,
        built: Optional[Place] = None,
        timeout: Optional[float] = None,
        life: Optional[int] = None, orders: Optional[int] = None, clock: Optional[int] = None, lane: Optional[int] = None,
        outlet: Optional[int] = None, queue: Optional[int] = None, mailbox: Optional[int] = None,
        chapter: Optional[int] = None, chapters: Optional[int] = None,
    ) -> None:
        limits = opening.limits_in(locals())
        told = opening.checked(map, robots, clients, ties, traces, limits, text)
        words = [finding.program(built), "live"]
        if period_ms is not None:
            words += ["--period", f"{round(period_ms * 1000)}us"]
        if on_tick is not None:
            words.append("--watch")
        if roomy:
            words.append("--roomy")
        if opening.checked_planner(planner):
            words += ["--planner", planner]
        if keep_every_ms is not None:
            words += opening.keep_words(told, keep_every_ms)
        words += opening.journal_words(told, journal, recall)
        super().__init__()
        self._is_on_demand = period_ms is None
        # Whether it may go on after its program was killed, and who has it go on just now
        self._keeps_journal, self._reconnecting = journal, threading.Lock()
        # The thread in which it is called does not keep the fleet alive.
        fleet = weakref.ref(self)
        self._caller = None if on_tick is None else Caller(on_tick, lambda: _is_over(fleet()))
        self._said = Conversation(self._caller, self._is_on_demand)
        self._files = contextlib.ExitStack()
        try:
            files = self._files.enter_context(told.files())
            self._words_again = [*words, *opening.trace_words(told, journal), *files]
            words += [*opening.trace_words(told, resume), *files]
            self._said.begin(words, timeout, self._tell_awaited, told.clients if resume else 0)
        except BaseException:
            self._let_go(timeout)
            raise
        try:
            self.look()
            if resume:
                self._said.know(told.clients)
        except BaseException as error:
            silently(lambda: self._program.end(timeout))
            self._let_go(timeout)
            if isinstance(error, Refused):
                raise told.named(error) from None
            raise
        if self._caller is not None:
            self._caller.start()

    @property
    def _program(self) -> Program:
        return self._said.program

    def reconnect(self) -> None:
        """Has the fleet go on after its program was killed, or ended by a fault: starts the program once more, takes in
        what was not told, and posts again the orders that the fleet does not have. Does nothing while the program runs.

        So each order has one verdict, and each notice is taken in once, in order. Errands go on, and a call that raised
        Ended can be made again, but for the orders that were under way: those are posted again by this. `go` has returned
        its errand then; whether a `withdraw` was done shows in the errand's `state`, and a second `close_client` is refused.

        Raises OutOfRange if the fleet keeps no journal, Ended if it is closed or the program was killed again, what the
        constructor raises if it does not start, and FileFailed if it goes on from another history than this fleet's, or
        cannot tell again what is missing, since `recall` is too small. It can be called again after each of these.
        """
        need_own_process(self._program.opened_in)
        if not self._keeps_journal:
            raise OutOfRange("a fleet that is reconnected keeps a journal")
        with self._reconnecting:
            if not self._program.is_closed and not self._program.has_ended():
                return
            if self._program.is_closed:
                raise Ended(self.status, "the fleet is closed")
            self._said.begin(self._words_again, self._program.timeout, self._tell_awaited)
            try:
                self.look()
                self._said.catch_up()
            except BaseException:
                self._program.kill()
                raise

    # ---- orders

    def _post(self, order: Order) -> None:
        self._said.post(order, self._keeps_journal)

    def _wait_for_verdict(self, order: Order, timeout: Optional[float]) -> None:
        if not self._program.wait(lambda: order._verdict is not None or order._refusal is not None, timeout):
            raise Waiting("the time went by")

    def _carry_out(self, order: Order, wanted: Verdict, timeout: Optional[float]) -> None:
        self._post(order)
        self._wait_for_verdict(order, timeout)
        order._expect(wanted)

    def go(self, robot: int, cell: int, client: int = 0) -> LiveErrand:
        """Asks a robot to come to a cell, after the errands that it has. Returns the errand; its verdict is what
        `accepted` of it says.

        Raises Refused with "lane-full", "client-closed", "numbers-spent", "no-client" or, of a fleet that is `roomy`, "no-room" if the order was not
        posted. If the program of a fleet with a journal ends before it answers, the errand is returned all the same: it is
        posted again by `reconnect`, if the fleet does not have it, and `accepted` raises what `go` would have raised.
        """
        client = whole_number("client", client)
        errand = LiveErrand(self, client, whole_number("robot", robot), whole_number("cell", cell))
        self._post(errand)
        return errand

    def withdraw(self, errand: LiveErrand, timeout: Optional[float] = None) -> None:
        """Takes back an errand that its robot is not heading for yet. Waits for both verdicts, at most
        `timeout` seconds for each.

        Raises OrderRefused with "too-late" or "no-errand", Waiting if the time went by, as `LiveErrand.accepted` if the
        errand was not accepted, and as `go` if this order was not posted.
        """
        need_own(errand, self)
        order = Order(errand.client, "withdraw", errand.accepted(timeout), withdraws=errand)
        self._carry_out(order, Verdict.WITHDRAWN, timeout)

    def close_client(self, client: int = 0, timeout: Optional[float] = None) -> None:
        """No order of this client is accepted any more. Waits `timeout` seconds for the verdict at most. Raises as `go`
        does, and Waiting.
        """
        self._carry_out(Order(whole_number("client", client), "close"), Verdict.CLOSED, timeout)

    def shut(self, robot: int) -> Optional[Farewell]:
        """A robot finishes its errands and gets no more. Returns its farewell if it has none. Raises Refused with
        "no-robot" or "already-shut".
        """
        return self._program.reply(f"shut {whole_number('robot', robot)}", _farewell_in)

    # ---- time

    def tick(self, count: int = 1) -> List[int]:
        """Makes `count` turns, 1 to 1,000,000, and returns the robots' cells, if there is no period (else FleetError is
        raised).

        Raises Refused with "clock-spent", or with "chapter-full" in the last of all chapters. The turns before a
        refused one were made.
        """
        count = whole_number("the number of ticks", count, least=1, most=MOST_TICKS)
        if self._is_on_demand:
            self._said.arrivals = []
        cells: List[int] = []
        for made in range(0, count, TICKS_AT_ONCE):
            cells = self._program.reply(f"tick {min(TICKS_AT_ONCE, count - made)}", _cells_in)
        return cells

    @property
    def arrivals(self) -> List[Arrival]:
        """The arrivals of the last call of `tick`, in the order in which they were told. A fleet with a period keeps
        no list of them: ask its errands.
        """
        return list(self._said.arrivals)

    # ---- the end

    @property
    def status(self) -> Optional[int]:
        """The program's exit status once the fleet is closed: 0, or 8 if a limit was met (docs/PROTOCOL.md has the
        others).
        """
        return self._program.status

    def _why_over(self) -> Optional[FleetError]:
        return self._program.why_over()

    def _is_left_open(self) -> bool:
        program = getattr(getattr(self, "_said", None), "program", None)
        return program is not None and not program.is_closed and program.opened_in == os.getpid()

    def _let_end(self) -> None:
        self._program.drop()
        self._let_go(0)

    def _let_go(self, timeout: Optional[float]) -> None:
        self._files.close()
        if self._caller is not None:
            self._caller.end(timeout)

    def close(self, timeout: Optional[float] = None) -> None:
        """Ends the program: what was posted is judged, and the last chapter is written if `traces` was given. Later
        calls do nothing.

        Raises FileFailed if a chapter could not be written, and Late if it did not end in time (`timeout` of
        the fleet, if none are given); then it is killed.
        """
        if self._program.is_closed:
            return
        try:
            self._program.close(self._program.timeout if timeout is None else timeout)
        finally:
            if self._program.is_closed:
                self._let_go(timeout)

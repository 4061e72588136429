"""The desk: posts errands to the fleet for the gateway's clients, and keeps what became of them."""

import asyncio
import collections
import concurrent.futures
import functools
import logging
import sqlite3
import time
from typing import Any, Callable, Deque, List, Optional, Union

from nashirudder.errors import Ended, FleetError, Missing, Refused
from nashirudder.events import Arrived, Event, Judged, Moved, NotPosted, Over, Posted
from nashirudder.stream import FleetStream

from . import recovery, turns
from .errand import Errand
from .journal import Batch
from .ledger import Ledger, Withdrawal
from .site import BadSite, Site
from .vehicles import Vehicles

log = logging.getLogger("nashirudder_gateway")

# Verdicts after which the same post may succeed later
AGAIN = ("queue-full", "lane-full")
# How many errands may be open, and how many posts be without a verdict: the fleet's mailbox then always has room
MOST_OPEN, MOST_UNANSWERED = 60_000, 5_000
# Seconds between looks at the fleet, and after which something is stuck
LOOK_EVERY, STUCK, RECOVERY = 1.0, 10.0, 120.0
HOUR, DAY = 3600.0, 86_400.0


class Wrong(Exception):
    """The fleet does not do what was expected: it has to be started again, and asked what it has."""


def _may_be_over(error: Exception) -> bool:
    """Whether the next start may go well: the fleet was killed, or the last one still ends."""
    return isinstance(error, Ended) and (error.status or 0) < 0 or "is in use by another fleet" in str(error)


class Desk(Ledger):
    """A ledger with its fleet. `run` keeps the fleet until `close`; a fleet that ends is started again. Then `end` is to be called."""

    def __init__(self, site: Site, tell: Callable[..., None], keep_days: float = 7.0, vehicles: Optional[Vehicles] = None) -> None:
        super().__init__(site, tell)
        self.keep_days, self.vehicles = keep_days, vehicles
        self.fleet: Optional[FleetStream] = None
        self.is_ready, self.is_closing, self.trouble = False, False, "the fleet has not started yet"
        self.outbox: Deque[Any] = collections.deque()
        # those that arrived by plan, and whose vehicles may not be there yet
        self.to_stand: List[Errand] = []
        self.next_number = 1
        self.latest_turn, self.busy_since = time.monotonic(), 0.0
        self._wake = asyncio.Event()
        self._disk = concurrent.futures.ThreadPoolExecutor(1, "journal")
        self._cleaned, self._in_hand = 0.0, 0

    # ---- what clients ask for

    def refusal(self) -> Optional[str]:
        """Why nothing can be posted now, or None."""
        if not self.is_ready:
            return "not-ready"
        if self.unanswered > MOST_UNANSWERED:
            return "behind"
        return "full" if self.open_of.total() >= MOST_OPEN else None

    @property
    def unanswered(self) -> int:
        """How many orders have no answer of the fleet yet."""
        return len(self.outbox) + self._in_hand + (0 if self.fleet is None else self.fleet.unanswered)

    def post(self, owner: str, robot: int, cell: int, key: Optional[str]) -> Errand:
        """A new errand, which is on the disk before the fleet hears of it. `refusal` and the key were looked at."""
        errand = self.journal.add(owner, key, robot, cell)
        self.open_of[owner] += 1
        self.outbox.append(errand)
        self._wake.set()
        return errand

    async def withdraw(self, errand: Errand, seconds: float) -> Optional[str]:
        """Posts the withdrawal of an accepted errand. Its verdict, or None if it has none in time, or the fleet ends before."""
        answer: "asyncio.Future[Optional[str]]" = asyncio.get_running_loop().create_future()
        self.outbox.append(Withdrawal(errand, answer))
        self._wake.set()
        await asyncio.wait((answer,), timeout=seconds)
        return answer.result() if answer.done() else None

    async def shut(self, robot: int) -> List[str]:
        """Shuts a robot, for good: that it is to be is on the disk before the fleet hears of it. Returns the fleet's answer."""
        self._need_fleet()
        await self.on_disk(self.journal.write_shut, robot)
        self.journal.shut.add(robot)
        self.robots.shut.add(robot)
        return await self.ask(f"shut {robot}")

    async def ask(self, line: str) -> List[str]:
        """The fleet's answer of one line. Raises FleetError if it is not there."""
        return (await self._need_fleet().ask(line))[0]

    def _need_fleet(self) -> FleetStream:
        if self.fleet is None or not self.is_ready:
            raise FleetError(self.trouble)
        return self.fleet

    def wake(self) -> None:
        """Something is to be posted, or written down."""
        self._wake.set()

    # ---- the fleet's life

    async def run(self) -> None:
        """Keeps a fleet until `close` is called. Raises what no later start can mend."""
        was_here = False
        try:
            while not self.is_closing:
                try:
                    self.fleet = await self.site.start()
                    was_here = True
                    if not self.is_closing:
                        await self._serve(self.fleet)
                except (FleetError, Wrong, OSError) as error:
                    if isinstance(error, (Refused, Missing)) or not was_here and not _may_be_over(error):
                        raise
                    why = str(error) or "the fleet does not answer"
                    log.warning("not ready: %s", why)
                    self._stop(why)
                await self._end_fleet(STUCK)
                if not self.is_closing:
                    await asyncio.sleep(0.5)
        finally:
            await self._end_fleet(STUCK)
            # where that fails the next fleet tells it again
            while (batch := self.journal.batch()) is not None and await self._is_written(batch):
                self.journal.settle(batch)
            self._disk.shutdown()

    def end(self) -> None:
        """Closes the files, once `run` has ended and nobody asks any more."""
        if self.vehicles is not None:
            self.vehicles.log.close()
        self.journal.close()
        self.lock.close()

    async def _end_fleet(self, seconds: float) -> None:
        if self.fleet is not None:
            await self.fleet.close(seconds)

    async def _serve(self, fleet: FleetStream) -> None:
        """Recovers, and then posts and hears until the fleet ends or something is wrong."""
        await asyncio.wait_for(recovery.recover(self, fleet), RECOVERY)
        self.is_ready, self.trouble, self.latest_turn = True, "", time.monotonic()
        log.info("ready at tick %d", self.tick)
        works, vehicles = [self._hear(fleet), self._post(fleet), self._look(fleet)], self.vehicles
        if vehicles is not None:
            vehicles.begin(self.tick, list(self.robots.cells))
            vehicles.on_move = functools.partial(turns.show, self, vehicles)
            works.append(turns.drive(self, fleet, vehicles))
        tasks = [asyncio.ensure_future(it) for it in works]
        try:
            done, _ = await asyncio.wait(tasks, return_when=asyncio.FIRST_COMPLETED)
            for task in done:
                task.result()
        finally:
            while not all(it.done() for it in tasks):   # asyncio.wait_for of Python 3.11 may swallow a cancellation
                for task in tasks:
                    task.cancel()
                await asyncio.wait(tasks, timeout=0.1)
            await asyncio.gather(*tasks, return_exceptions=True)
            self._stop("the fleet ended")

    def _stop(self, trouble: str) -> None:
        if self.vehicles is not None:
            self.vehicles.stop()
        self.to_stand.clear()
        self.is_ready, self.trouble, self.busy_since = False, trouble, 0.0
        self.let_go([it.answer for it in self.outbox if isinstance(it, Withdrawal)])
        self.outbox.clear()
        self._in_hand = 0

    async def close(self) -> None:
        """Lets the fleet end: vehicles do what was planned, what was posted is judged, and the last chapter is written."""
        self.is_closing = True
        if self.vehicles is not None:
            await turns.settle(self.vehicles)
        await self._end_fleet(60)

    # ---- the three tasks

    async def _post(self, fleet: FleetStream) -> None:
        """Errands go to the disk, and then to the fleet, in the order of their numbers."""
        await self._write_down()                # what an earlier fleet's end kept from being written
        while True:
            await self._wake.wait()
            self._wake.clear()
            orders = list(self.outbox)
            self.outbox.clear()
            self._in_hand = len(orders)
            for order in orders:
                if isinstance(order, Errand):
                    order.number = self.next_number
                    self.by_number[self.next_number] = order
                    self.journal.note(order)
                self.next_number += 1
            await self._write_down()
            for order in orders:
                if isinstance(order, Errand):
                    fleet.go(order.robot, order.cell, note=order)
                else:
                    fleet.withdraw(order.errand.accepted, note=order)
            self._in_hand = 0
            self.busy_since = time.monotonic()
            await fleet.drain()
            self.busy_since = 0.0

    async def _write_down(self) -> None:
        batch = self.journal.batch()
        if batch is not None:
            self.busy_since = time.monotonic()
            while not await self._is_written(batch):
                await asyncio.sleep(1)
            self.busy_since = 0.0
            self.journal.settle(batch)

    async def on_disk(self, call: Callable[..., Any], *words: Any) -> None:
        """Calls it in the thread that writes."""
        await asyncio.get_running_loop().run_in_executor(self._disk, call, *words)

    @property
    def what_is_wrong(self) -> str:
        """The trouble of the fleet, or else of the vehicles."""
        return self.trouble or ("" if self.vehicles is None else self.vehicles.trouble)

    async def _is_written(self, batch: Batch) -> bool:
        try:
            await self.on_disk(self.journal.write, batch)
        except sqlite3.Error as error:
            self.trouble, self.is_ready = f"the journal cannot be written: {error}", False
            log.error("%s", self.trouble)
            return False
        if self.trouble.startswith("the journal"):
            self.trouble, self.is_ready = "", not self.is_closing
        return True

    async def _look(self, fleet: FleetStream) -> None:
        """Looks whether the fleet answers, and lets what was heard be written down."""
        while True:
            await asyncio.sleep(LOOK_EVERY)
            self.robots.eldest = (await asyncio.wait_for(fleet.look(), STUCK)).eldest
            if self.vehicles is not None:
                self.vehicles.log.remove_before(self.vehicles.reached)
            if time.time() > self._cleaned + HOUR:
                self._cleaned = time.time()
                await self.on_disk(self.journal.remove_before, self._cleaned - self.keep_days * DAY)
            self._wake.set()

    async def _hear(self, fleet: FleetStream) -> None:
        async for event in fleet:
            self.heard(event)

    def heard(self, event: Event) -> None:
        if isinstance(event, Moved):
            self.tick, self.latest_turn = event.tick, time.monotonic()
            self.robots.cells = event.cells
            self.tell("tick", event.tick, event.cells)
        elif isinstance(event, (Judged, Arrived)):
            self._notice(event)
        elif isinstance(event, Posted):
            if isinstance(event.note, Errand) and event.note.number != event.number:
                raise Wrong("an order has another number than was written down")
        elif isinstance(event, NotPosted):
            raise Wrong(f"an order was not posted: {event.name}")
        elif isinstance(event, Over) and not self.is_closing:
            raise Wrong(f"the fleet ended with status {event.status}: {event.complaint}")

    def _notice(self, event: Union[Judged, Arrived]) -> None:
        """Takes in a notice, if it is not one that was told again."""
        heard = self.journal.heard or 0
        if event.seq <= heard:
            return
        if event.seq > heard + 1:
            raise Wrong(f"notice {event.seq} came after {heard}")
        self.journal.heard = event.seq
        if isinstance(event, Judged):
            self.judged(event)
            return
        errand = self.arrived(event)
        if errand is not None and self.vehicles is not None:
            self.to_stand.append(errand)

"""The ledger: what became of each errand, as the fleet tells it."""

import asyncio
import collections
from typing import Any, Callable, Dict, Iterable, Optional

from nashirudder.events import Arrived, Judged

from .errand import ACCEPTED, ARRIVED, POSTED, REFUSED, WITHDRAWN, Errand
from .journal import Journal
from .robots import Robots
from .site import Site


class Withdrawal:
    """An order that takes an errand back; `answer` gets the verdict."""

    def __init__(self, errand: Errand, answer: "asyncio.Future[Optional[str]]") -> None:
        self.errand, self.answer = errand, answer


class Ledger:
    """`tell(kind, errand or tick, cells)` is called with "verdict", "arrival" and "tick" as they come. `counts` are figures by
    their names, and `open_of` the open errands of each client."""

    def __init__(self, site: Site, tell: Callable[..., None]) -> None:
        self.site, self.tell, self.tick = site, tell, 0
        self.lock = site.lock()
        self.journal = Journal(str(site.folder / "journal.db"))
        self.robots = Robots(len(site.robots))
        self.counts: "collections.Counter[str]" = collections.Counter()
        self.open_of: "collections.Counter[str]" = collections.Counter()
        # by the number of the order that has no verdict, and of the accepted errand that is open
        self.by_number: Dict[int, Errand] = {}
        self.by_accepted: Dict[int, Errand] = {}
        self._waiting: "Dict[int, asyncio.Future[Optional[str]]]" = {}

    async def verdict(self, errand: Errand, seconds: float) -> None:
        """Waits until the errand has a verdict, at most so long."""
        if errand.state != POSTED:
            return
        answer = self._waiting.get(errand.id)
        if answer is None:
            answer = self._waiting[errand.id] = asyncio.get_running_loop().create_future()
        await asyncio.wait((answer,), timeout=seconds)

    def let_go(self, more: "Iterable[asyncio.Future[Optional[str]]]") -> None:
        """Nobody who waits for a verdict gets one now, nor do these."""
        for answer in [*self._waiting.values(), *more]:
            if not answer.done():
                answer.set_result(None)
        self._waiting.clear()

    # ---- what became of an errand

    def judged(self, event: Judged) -> None:
        self.counts[f'gateway_verdicts_total{{verdict="{event.verdict}"}}'] += 1
        errand = self.by_number.pop(event.number, None)
        if isinstance(event.note, Withdrawal):
            if event.verdict == WITHDRAWN:
                self.withdrawn(event.note.errand)
            if not event.note.answer.done():
                event.note.answer.set_result(event.verdict)
        elif errand is not None and event.errand is not None:
            errand.state, errand.accepted = ACCEPTED, event.errand
            self.by_accepted[event.errand] = errand
            self.robots.add(errand, self.tick)
            self._has_verdict(errand)
        elif errand is not None:
            self._refused(errand, event.verdict)

    def _refused(self, errand: Errand, verdict: str) -> None:
        if verdict == "robot-shut":
            self.robots.shut.add(errand.robot)
        errand.reason = verdict
        self._close_errand(errand, REFUSED)
        self._has_verdict(errand)
        self.journal.free_key(errand)

    def _has_verdict(self, errand: Errand) -> None:
        self.journal.note(errand)
        answer = self._waiting.pop(errand.id, None)
        if answer is not None and not answer.done():
            answer.set_result(None)
        self.tell("verdict", errand)

    def arrived(self, event: Arrived) -> Optional[Errand]:
        """The errand that arrived, if it is known."""
        errand = self.by_accepted.pop(event.errand, None)
        if errand is not None:
            self.counts["gateway_arrivals_total"] += 1
            errand.tick = event.tick
            self._close_errand(errand, ARRIVED)
            self.tell("arrival", errand)
        return errand

    def withdrawn(self, errand: Errand, state: str = WITHDRAWN) -> None:
        """It will not arrive."""
        self.by_accepted.pop(errand.accepted or 0, None)
        self._close_errand(errand, state)
        self.tell("verdict", errand)

    def _close_errand(self, errand: Errand, state: str) -> None:
        self.open_of[errand.owner] -= 1
        errand.state = state
        self.robots.remove(errand, self.tick)
        self.journal.note(errand)

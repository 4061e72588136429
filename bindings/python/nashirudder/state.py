"""How a fleet stands, as a value that can be kept, changed, and gone on from."""

import json
from dataclasses import dataclass, field
from typing import Any, Dict, List, Optional, Tuple

from .errors import OutOfRange
from .map_handle import Map
from .opening import Text, text_of

_LAW = [0, 0]


@dataclass
class OpeningErrand:
    """An errand that is accepted and not done: its client, its number among the client's accepted ones, its cell."""

    client: int
    number: int
    cell: int


@dataclass
class OpeningRobot:
    """A robot: where it is, its errands in order, and whether it takes no further ones. `wait` is how many ticks it has
    waited for its next arrival, None exactly if it has no errand.
    """

    cell: int
    errands: List[OpeningErrand] = field(default_factory=list)
    wait: Optional[int] = None
    shut: bool = False
    laws: Tuple[List[int], List[int]] = field(default_factory=lambda: (list(_LAW), list(_LAW)))


@dataclass
class OpeningClient:
    """A client: how many of its orders were taken, how many errands accepted, how many notices made, and whether it is
    closed.
    """

    taken: int = 0
    accepted: int = 0
    noticed: int = 0
    closed: bool = False


@dataclass
class Opening:
    """How a fleet stands at the beginning of a chapter (docs/TRACE.md, "The keys").

    `of` reads one from the text of a chapter, and `trace` writes the text of a chapter without entries, from which
    `Handle.reopen` goes on, as `Handle.go_on` does from the state itself. Robots may be moved, added and removed in
    between: each has a floor cell of its own, and a walk leads from it to the cells of its errands.
    """

    chapter: int
    tick: int
    life: int
    queue: int
    clients: List[OpeningClient]
    robots: List[OpeningRobot]
    version: int = 2

    @classmethod
    def of(cls, trace: Text) -> "Opening":
        """The state at the beginning of this chapter. Raises OutOfRange if the text is no chapter."""
        try:
            told: Dict[str, Any] = json.loads(text_of(trace))
            opening = told["opening"]
            robots = [
                OpeningRobot(cell, [OpeningErrand(*errand) for errand in errands], wait, shut, (arrival, farewell))
                for cell, shut, wait, errands, arrival, farewell in opening["robots"]
            ]
            clients = [OpeningClient(*client) for client in opening["clients"]]
            return cls(told["chapter"], opening["tick"], opening["life"], opening["queue"], clients, robots, told["version"])
        except (ValueError, LookupError, TypeError, RecursionError) as error:
            raise OutOfRange(f"this is not the text of a chapter: {error}") from error

    def trace(self) -> str:
        """The text of a chapter that begins so, and has no entries."""
        robots = [
            [one.cell, one.shut, one.wait, [[errand.client, errand.number, errand.cell] for errand in one.errands], *one.laws]
            for one in self.robots
        ]
        clients = [[one.taken, one.accepted, one.noticed, one.closed] for one in self.clients]
        opening = {"clients": clients, "life": self.life, "queue": self.queue, "robots": robots, "tick": self.tick}
        told = {"chapter": self.chapter, "entries": [], "opening": opening, "version": self.version}
        return json.dumps(told, separators=(",", ":"))

    def cancel(self, robot: int, place: int = 1) -> OpeningErrand:
        """Takes an errand out of the robot's queue, also the one that it heads for: the one at this place, from 1.
        Returns it. Raises OutOfRange if there is none.
        """
        if not 0 <= robot < len(self.robots) or not 1 <= place <= len(self.robots[robot].errands):
            raise OutOfRange(f"robot {robot} has no errand at place {place}")
        of = self.robots[robot]
        errand = of.errands.pop(place - 1)
        if place == 1:
            of.wait = 0 if of.errands else None
        return errand

    def move(self, robot: int, cell: int) -> None:
        """Puts a robot on another cell; it has waited no tick then. Raises OutOfRange if there is no such robot."""
        if not 0 <= robot < len(self.robots):
            raise OutOfRange(f"there is no robot {robot}")
        of = self.robots[robot]
        of.cell, of.wait = cell, 0 if of.errands else None

    def fault(self, map: Map) -> Optional[str]:
        """What is wrong with a robot on this map, in a sentence, or None if each stands on a floor cell of its own from
        which a walk leads to each of its errands.
        """
        on: Dict[int, int] = {}
        for robot, of in enumerate(self.robots):
            if not map.joins(of.cell, of.cell):
                return f"robot {robot} is on cell {of.cell}, which is no floor"
            if on.setdefault(of.cell, robot) != robot:
                return f"robots {on[of.cell]} and {robot} are both on cell {of.cell}"
            for errand in of.errands:
                if not map.joins(of.cell, errand.cell):
                    return f"no walk leads robot {robot} from cell {of.cell} to cell {errand.cell}, where its errand {errand.number} of client {errand.client} goes"
        return None


def told_by(text: bytes) -> Dict[str, int]:
    """What the text of a chapter tells: its number, the limits that it has, and how many robots there are; nothing, if
    it is no such text, of which the library says more.
    """
    try:
        told = json.loads(text)
        opening = told["opening"]
        found = {"chapter": told["chapter"], "queue": opening["queue"], "life": opening["life"], "robots": len(opening["robots"])}
    except (ValueError, LookupError, TypeError, RecursionError):
        return {}
    return found if all(type(number) is int and 0 <= number <= 2**40 for number in found.values()) else {}

"""What a fleet tells: arrivals, farewells, errands, how robots stand, looks and chapters."""

from dataclasses import dataclass
from typing import List, Optional


@dataclass(frozen=True)
class Arrival:
    """A robot arrived at the cell of an errand.

    `robot` and `client` count from 0. `number` is the errand's number among its client's accepted ones, from 1. `cell`
    counts row by row from 0. `tick`, from 1, is the tick after which the robot stood on the cell. `stamp` is 0 with
    ties "plain", and the tick modulo 1,000 with "south".
    """

    robot: int
    client: int
    number: int
    cell: int
    tick: int
    stamp: int


@dataclass(frozen=True)
class Farewell:
    """A robot that is shut has no errand left. `stamp` is 0 with ties "plain", and its cell with "south"."""

    robot: int
    stamp: int


@dataclass(frozen=True)
class OpenErrand:
    """An errand that is accepted, and neither done nor withdrawn, and where it stands.

    `client`, `number` and `cell` are as in `Arrival`. It is in the queue of `robot`, at `place`, from 1: at place 1 the
    robot is on its way to the cell.
    """

    client: int
    number: int
    robot: int
    cell: int
    place: int


@dataclass(frozen=True)
class Session:
    """How far a client's orders and notices have come: `orders` of its orders were taken, and `notices` notices were told to it, of which those from
    number `told_from` on can be told again; if none can, `told_from` is `notices` and one more. `is_closed` says whether it posted a close.
    """

    orders: int
    notices: int
    told_from: int
    is_closed: bool


@dataclass(frozen=True)
class Standing:
    """How a robot stands.

    `state` is "free" if it has no errand, "busy" if it has some, and "shut" if it takes no further ones; then it may
    still have some. `cell` is where it is, and `goal` the cell of its front errand. `errands` is how many errands it
    has, and `wait` how many ticks it has waited for the arrival at its goal. Without an errand `goal` and `wait` are
    None.
    """

    state: str
    cell: int
    goal: Optional[int]
    errands: int
    wait: Optional[int]


@dataclass(frozen=True)
class Hello:
    """What a fleet in real time is: its program's `version`, how many `robots` and `clients` it has, the map's sides, how far it is (`chapter` and
    `tick` are as in `Look`), and the limits `queue`, `mailbox` and `lane`.
    """

    version: str
    robots: int
    clients: int
    width: int
    height: int
    chapter: int
    tick: int
    queue: int
    mailbox: int
    lane: int


@dataclass(frozen=True)
class Look:
    """How the fleet stands.

    `tick` is the number of ticks made so far. `chapter` is the number of the present chapter, from 0, and `entries` how
    many takes, ticks and shuts it has. `eldest` is the robot that has waited longest, None if no robot has an errand.
    `within` is the number of ticks within which all errands are done if none is added; None on a map with a bridge, and over
    pipes to `fleet talk` only where an errand goes to a cell that is not roomy. `cells` has each robot's cell, by the robot's
    number. `blocked` is told by `fleet talk` alone: where `eldest` stands before a dead end that is full of robots, the cell
    next to it there.
    """

    tick: int
    chapter: int
    entries: int
    eldest: Optional[int]
    within: Optional[int]
    cells: List[int]
    blocked: Optional[int] = None

    @property
    def idle(self) -> bool:
        """Whether no robot has an errand."""
        return self.eldest is None


@dataclass(frozen=True)
class Chapter:
    """A chapter that was handed out: its number, from 0, and how many entries it has."""

    number: int
    entries: int

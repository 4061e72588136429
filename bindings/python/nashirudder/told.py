"""What the calls of a `Handle` tell."""

from dataclasses import dataclass
from typing import TYPE_CHECKING, Any, List, Optional, Union

from .calls import NOWHERE, CErrand, CJudgement, CNote, CStanding
from .errors import NoMemory, Refused
from .names import STATES, Verdict
from .records import Arrival, OpenErrand, Standing

if TYPE_CHECKING:
    from .arrays import Cells


@dataclass(frozen=True)
class Judgement:
    """The verdict of an order, by its word such as "accepted" or "blocked"; and the errand's number, from 1, if it was
    accepted, else None.
    """

    verdict: str
    number: Optional[int]


@dataclass(frozen=True)
class Report:
    """The ticks made so far, and how many robots arrived, and how many shut robots did their last errand."""

    tick: int
    arrived: int
    farewells: int


@dataclass(frozen=True)
class Notice:
    """What a client is told: the verdict of its order, or an arrival, whose `verdict` is None.

    `seq` counts the client's notices from 1. Of a verdict `order` is the client's order, from 1, and `number` the
    errand's number if it was accepted. Of an arrival `number`, `robot`, `cell` and `tick` are as in `Arrival`, and
    `stamp` is 0.
    """

    seq: int
    order: Optional[int]
    verdict: Optional[str]
    number: Optional[int]
    robot: Optional[int] = None
    cell: Optional[int] = None
    tick: Optional[int] = None
    stamp: Optional[int] = None


@dataclass(frozen=True)
class TickRecord:
    """A tick, and what happened in it.

    `tick` is the number of ticks made so far. `cells` has each robot's cell after it, as `placement` has. `arrivals`
    are by robot, and `farewells` the numbers of the shut robots that did their last errand, by number.
    """

    tick: int
    cells: "Cells"
    arrivals: List[Arrival]
    farewells: List[int]


@dataclass(frozen=True)
class Taken:
    """Orders that were taken one after the other: a judgement of each, and the refusal, or want of memory, at which it
    ended, if it did.

    The order after the last judgement is the one that was refused. It was not taken, and those after it were not tried.
    """

    judgements: List[Judgement]
    refused: Union[Refused, NoMemory, None]


@dataclass(frozen=True)
class Account:
    """What a client has, and had: how many of its orders were taken in all chapters, how many errands it has open, how
    many notices it was not given yet, and how many of the last two together its mailbox can hold.
    """

    taken: int
    owed: int
    pending: int
    room: int


def judgement_of(told: CJudgement) -> Judgement:
    return Judgement(Verdict(told.verdict).word, told.number or None)


def notice_of(note: CNote) -> Notice:
    if note.verdict:
        return Notice(note.seq, note.order, Verdict(note.verdict).word, note.number or None)
    return Notice(note.seq, None, None, note.number, note.robot, note.cell, note.tick, note.stamp)


def errand_of(told: CErrand) -> OpenErrand:
    return OpenErrand(told.client, told.number, told.robot, told.cell, told.place)


def standing_of(told: CStanding) -> Standing:
    state = STATES[told.state]
    if told.goal == NOWHERE:
        return Standing(state, told.cell, None, told.errands, None)
    return Standing(state, told.cell, told.goal, told.errands, told.wait)

"""What a stream of a fleet tells, in the order of the program's lines: `stream.FleetStream`."""

from typing import Any, List, NamedTuple, Optional, Sequence, Union


class Posted(NamedTuple):
    """An order was posted, as the client's order `number`. `note` is what was given with it."""

    client: int
    number: int
    note: Any


class NotPosted(NamedTuple):
    """An order was not posted, and has no number: `name` is "lane-full", "closed", "numbers-spent" or "no-client", or "next" if it was to have a
    number that is not its client's next one."""

    client: int
    name: str
    note: Any


class Judged(NamedTuple):
    """An order was judged: `verdict` is its word, such as "accepted", "withdrawn" or "queue-full". An accepted one is
    the client's errand `errand`; else this is None. `seq` counts the client's notices, of both kinds, from 1."""

    client: int
    number: int
    verdict: str
    errand: Optional[int]
    note: Any
    seq: int


class Arrived(NamedTuple):
    """An errand is done. `note` is that of its order, or None for one that was accepted before this program started. `seq` is as in Judged."""

    client: int
    errand: int
    robot: int
    cell: int
    tick: int
    stamp: int
    note: Any
    seq: int


class Moved(NamedTuple):
    """A turn was made: the robots' cells after it."""

    tick: int
    cells: List[int]


class Over(NamedTuple):
    """The program ended, after `ticks` ticks if it told them. It is the last event."""

    status: Optional[int]
    ticks: Optional[int]
    complaint: str


Event = Union[Posted, NotPosted, Judged, Arrived, Moved, Over]


def notice_in(words: Sequence[bytes]) -> Union[Judged, Arrived]:
    """What a line `collected ..` says, without a note."""
    client, seq, number = int(words[1]), int(words[2]), int(words[4])
    if words[3] == b"arrived":
        robot, cell, tick, stamp = (int(word) for word in words[6::2])
        return Arrived(client, number, robot, cell, tick, stamp, None, seq)
    verdict = words[7] if words[5] == b"refused" else words[5]
    return Judged(client, number, verdict.decode(), int(words[6]) if verdict == b"accepted" else None, None, seq)

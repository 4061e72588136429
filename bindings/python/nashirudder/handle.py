"""A fleet in this process, by the calls of nashirudder.h one by one."""

import contextlib
import ctypes
import threading
from ctypes import byref
from typing import TYPE_CHECKING, Any, Dict, List, Optional, Sequence, Tuple, Type, TypeVar, Union

from .arrays import new_cells, room_in, without_array
from .batches import Batches
from .calls import CArrival, CFault, CFleet, CJudgement, CNote, CReport, CRobot, CSetup, check, load
from .ended import EndedChapter
from .errors import OutOfRange, Refused
from .finding import Place
from .map_handle import Map
from .names import Code
from .opening import MapText, Text, map_text, text_of
from .ranges import checked_limits, limits_in, long_number, whole_number
from .records import Arrival
from .searches import Searches
from .state import Opening, told_by
from .told import Judgement, Notice, Report, TickRecord, judgement_of, notice_of
from .uncopied import Uncopied
from .views import Views

Start = Union[int, Tuple[int, Sequence[int]]]


def _start(robot: Start) -> CRobot:
    """A robot's start cell and its four ranks."""
    cell, ranks = robot if isinstance(robot, (tuple, list)) else (robot, (0, 0, 0, 0))
    if len(ranks) != 4:
        raise OutOfRange(f"a robot has four ranks, and not {len(ranks)}")
    checked = (whole_number("a rank", rank, most=255) for rank in ranks)
    return CRobot(whole_number("a start cell", cell), (ctypes.c_uint8 * 4)(*checked))


if TYPE_CHECKING:
    from .arrays import Room

H = TypeVar("H", bound="Handle")


class Handle(Uncopied, Views, Batches, Searches):
    """Robots on a map, and clients that send them to cells: the calls of nashirudder.h, of which that page says more.

    `map` is the text of a .map file, or a `pathlib.Path` of one. `robots` has each robot's start cell, 1 to 512 of them, or a pair of
    it and four ranks, 0 to 255 each, of the ways north, east, south and west: of two neighbour cells that are equally
    near to its goal a robot tries the one with the lower rank first. `clients` is 1 to 64. The limits are `life`,
    `orders`, `clock`, `lane`, `outlet`, `queue`, `mailbox`, `chapter` and `chapters`, with the defaults of
    nashirudder_setup_default: a fleet that runs for long needs greater ones. With `roomy` an errand to a cell that is
    not roomy for the robots is refused with "no-room", before it is judged. `built` is the library, or a folder that has
    it.

    A call that is refused raises Refused, whose `name` is the word of its code, or NoMemory, and changes nothing.
    Numbers are whole ones from 0 to 2^32 - 1 if nothing else is said, or the call raises OutOfRange. Any thread may
    call; calls on one handle are made one after the other. Ctrl-C in a call may lose what it answers, as a notice of
    `give`: `library.Fleet` does not. After `close` each call is refused with "not-open".

    Raises Refused with a fault of the map ("map-header", "map-size", "map-row", "map-cell", "map-trailing"),
    "bad-setup", "robot-count", "start-blocked" or "start-shared"; NoMemory; Missing if the library is not found; and
    TypeError for a limit that there is not.
    """

    def __init__(
        self, map: MapText, robots: Sequence[Start], clients: int = 1, *, roomy: bool = False, built: Optional[Place] = None,
        life: Optional[int] = None, orders: Optional[int] = None, clock: Optional[int] = None, lane: Optional[int] = None,
        outlet: Optional[int] = None, queue: Optional[int] = None, mailbox: Optional[int] = None,
        chapter: Optional[int] = None, chapters: Optional[int] = None,
    ) -> None:
        limits = limits_in(locals())
        text, name = map_text(map), "open_roomy" if roomy else "open"
        self._open(name, (text, len(text)), [_start(robot) for robot in robots], clients, built, limits)

    def _open(
        self, name: str, texts: Tuple[Any, ...], robots: List[CRobot], clients: int, built: Optional[Place], limits: Any
    ) -> None:
        self._library = load(built)
        self._lock = threading.Lock()
        self._fleet = CFleet()
        self._count = len(robots)
        # How it was opened, and is to go on
        self._manner: Dict[str, Any] = {"roomy": name.endswith("_roomy"), "built": built, **limits}
        self._turns = False
        self._kept: Optional[int] = None
        setup, fault = CSetup(), CFault()
        self._library.nashirudder_setup_default(whole_number("clients", clients), byref(setup))
        for limit, number in checked_limits(limits).items():
            setattr(setup, limit, number)
        starts = (CRobot * max(1, len(robots)))(*robots)
        call = getattr(self._library, "nashirudder_" + name)
        check(call(*texts, starts, len(robots), byref(setup), byref(self._fleet), byref(fault)), fault)

    @classmethod
    def reopen(
        cls: "Type[H]", map: MapText, trace: Text, ranks: Optional[Sequence[Sequence[int]]] = None, *,
        roomy: bool = False, built: Optional[Place] = None,
        life: Optional[int] = None, orders: Optional[int] = None, clock: Optional[int] = None, lane: Optional[int] = None,
        outlet: Optional[int] = None, queue: Optional[int] = None, mailbox: Optional[int] = None,
        chapter: Optional[int] = None, chapters: Optional[int] = None,
    ) -> "H":
        """A fleet that goes on from a chapter that was kept: `trace` is what `trace` returned at the chapter's end.

        Its own chapter has the next number, and begins where that one ends. Robots, clients and errands are those of
        the chapter; the mailboxes are empty. `ranks` has the four ranks of each robot, which a chapter does not keep;
        all are zero if none are given. The limits `queue` and `life` are those of the chapter, and have to be if they
        are given.

        Raises Refused with a fault of the map, "trace-not-json", "trace-version", "trace-shape", "bad-setup",
        "chapter-illegal" (the entry and the rule are in `numbers`: docs/TRACE.md), "laws-differ", "limits-differ",
        "chapters-spent" or "waited-too-long", with `roomy` "no-room" if an unfinished errand goes to a cell that is not
        roomy; and as the constructor does.
        """
        limits = limits_in(locals())
        fleet, texts = cls.__new__(cls), (map_text(map), text_of(trace))
        told = told_by(texts[1])
        own = {name: told[name] for name in ("queue", "life") if name in told}
        kept = [(0, 0, 0, 0)] * told.get("robots", 1) if ranks is None else ranks
        robots = [_start((0, tuple(four))) for four in kept]
        handed = (texts[0], len(texts[0]), texts[1], len(texts[1]))
        try:
            fleet._open("reopen_roomy" if roomy else "reopen", handed, robots, 1, built, {**own, **limits})
        except Refused as refused:
            if refused.name == "limits-differ" and own:
                refused.sentence += f": the chapter has `queue` {own['queue']} and `life` {own['life']}"
            if refused.name == "chapter-illegal" and refused.numbers == (0, 1):
                # The opening does not fit the map.
                with Map(texts[0], built=built) as on:
                    why = Opening.of(texts[1]).fault(on)
                refused.sentence += f": {why}" if why else ""
            raise
        return fleet

    def close(self) -> None:
        """Frees what the fleet owns. Every later call is refused with "not-open", but for `close`, which does nothing.
        """
        self._call("close")

    def __enter__(self: H) -> H:
        return self

    def __exit__(self, *_: object) -> None:
        self.close()

    def __del__(self) -> None:
        if getattr(self, "_fleet", None) is not None:
            self.close()

    # ---- orders

    def _judged(self, name: str, *arguments: int) -> Judgement:
        told = CJudgement()
        check(self._call(name, *arguments, byref(told)))
        return judgement_of(told)

    def go(self, robot: int, cell: int, client: int = 0) -> Judgement:
        """The client orders the robot to the cell. Returns the verdict, which may be a refusal: then the call was
        carried out all the same.

        Raises Refused with "no-client", "mailbox-full" (`give` makes room) or "chapter-full" (`next_chapter` does);
        then the order was not taken.
        """
        order = (whole_number("client", client), whole_number("robot", robot), whole_number("cell", cell))
        return self._judged("go", *order)

    def close_client(self, client: int = 0) -> Judgement:
        """The client's last order: what it orders later is refused with the verdict "client-closed". Returns and raises
        as `go`.
        """
        return self._judged("close_client", whole_number("client", client))

    def withdraw(self, number: int, client: int = 0) -> Judgement:
        """The client gives up its accepted errand of that number, up to 2^64 - 1. Returns and raises as `go`."""
        return self._judged("withdraw", whole_number("client", client), long_number("the errand's number", number))

    # ---- ticks and shuts

    def tick(self) -> Report:
        """All robots make one step. Raises Refused with "clock-spent" or "chapter-full"."""
        did = CReport()
        check(self._call("tick", byref(did)))
        return Report(did.tick, did.arrived, did.farewells)

    def tick_record(self, out: "Optional[Room]" = None) -> TickRecord:
        """The same, and returns what happened in the tick: the call nashirudder_tick_into.

        `out` is as in `placement`: the cells are written there, and `cells` of what is returned is `out`.
        """
        did, count = CReport(), self._count
        told = new_cells(count) if out is None else out
        cells = room_in(told, ctypes.c_uint32, count)
        gone, came = (ctypes.c_uint32 * count)(), (CArrival * count)()
        check(self._call("tick_into", byref(did), cells, count, came, count, gone, count))
        arrivals = [
            Arrival(one.robot, one.client, one.number, one.cell, did.tick, one.stamp) for one in came[: did.arrived]
        ]
        return TickRecord(did.tick, without_array(told) if out is None else out, arrivals, gone[: did.farewells])

    def shut(self, robot: int) -> bool:
        """The robot gets no more errands. Returns True if it has none, and so took its leave at once.

        Raises Refused with "no-robot", "already-shut" or "chapter-full".
        """
        left = ctypes.c_bool()
        check(self._call("shut", whole_number("robot", robot), byref(left)))
        return left.value

    # ---- mailboxes

    def give(self, client: int = 0) -> Optional[Notice]:
        """The client's next notice, which leaves its mailbox, or None if there is none. Raises Refused with
        "no-client".
        """
        note = CNote()
        code = self._call("give", whole_number("client", client), byref(note))
        if code == Code.NO_NOTICE:
            return None
        check(code)
        return notice_of(note)

    def give_many(self, client: int = 0, most: int = 64) -> List[Notice]:
        """The client's next notices, `most` (1 to 65,536) of them at most, which leave its mailbox.

        Raises Refused with "no-client".
        """
        most = whole_number("most", most, least=1, most=65536)
        notes, count = (CNote * most)(), ctypes.c_size_t()
        check(self._call("give_many", whole_number("client", client), notes, most, byref(count)))
        return [notice_of(note) for note in notes[: count.value]]

    def take_turns(self) -> None:
        """Lets the robots take turns from now on, so that errands to served cells arrive, also in dead ends.

        On a map without bridges nothing changes. The chapters that follow are planned so too; a fleet that is reopened
        is asked again. Raises Refused with "chapter-begun" if the chapter has an entry, or "no-turns" if the rooms that
        were found do not pass their checks.
        """
        check(self._call("take_turns"))
        self._turns = True

    def widen(self, extra: int, client: int = 0) -> None:
        """Lets the client's mailbox hold `extra` more notices and unfinished errands, and takes the memory for them at
        once.

        `extra` is up to 2^64 - 1. Raises Refused with "no-client", or "too-wide" if the mailbox would hold more than
        2^60.
        """
        check(self._call("widen", whole_number("client", client), long_number("extra", extra)))

    # ---- chapters

    def next_chapter(self) -> None:
        """Begins the next chapter; the entries of the present one are let go, so take its trace before. Raises Refused
        with "book-spent".
        """
        check(self._call("next_chapter"))

    def opening(self) -> Opening:
        """How the fleet stood at the beginning of the present chapter; after `next_chapter` or `hand_out`, how it stands
        now. It may be kept, changed, and passed to `go_on`, or to `reopen` by its `trace`.
        """
        return Opening.of(self.trace())

    def go_on(self, map: MapText, state: Opening, ranks: Optional[Sequence[Sequence[int]]] = None) -> None:
        """Goes on from this state, on this map: what was changed in it is so then, and a state of before is gone back to.

        Limits, kept distances, roomy cells and turns are this fleet's, but `queue` and `life` the state's. Mailboxes are
        empty, so give all notices first. `ranks` is as in `reopen`. Raises as `reopen`, and Refused with "no-turns"; then
        the fleet is as it was.
        """
        self.clock()    # raises where it is closed
        manner: Dict[str, Any] = {**self._manner, "queue": state.queue, "life": state.life}
        other = Handle.reopen(map, state.trace(), ranks, **manner)
        with contextlib.closing(other):
            if self._turns:
                other.take_turns()
            if self._kept is not None:
                other.keep(self._kept)
            with self._lock:
                self._fleet, other._fleet, self._count = other._fleet, self._fleet, other._count

    def hand_out(self) -> EndedChapter:
        """Begins the next chapter, and returns the one that ended. Raises Refused with "book-spent"."""
        ended = EndedChapter(self._library)
        check(self._call("next_chapter_into", byref(ended._chapter)))
        return ended

    def keep(self, size: int) -> None:
        """Keeps distances to goals that no robot has any more, up to `size` bytes (256 MiB if nothing is said; up to
        2^64 - 1).
        """
        check(self._call("keep", long_number("size", size)))
        self._kept = size

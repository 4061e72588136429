"""The execution of a plan by robots that are not in step."""

import threading
from ctypes import byref
from dataclasses import dataclass
from typing import TYPE_CHECKING, Any, Optional, TypeVar

from .arrays import c_cells
from .calls import CExecution, CMove, CProgress, CWhereabouts, check, load
from .errors import OutOfRange
from .finding import Place
from .names import Code
from .ranges import whole_number
from .uncopied import Uncopied

if TYPE_CHECKING:
    from typing import Literal

    from .arrays import Numbers

    ClearanceName = Literal["arrived", "started"]

E = TypeVar("E", bound="Execution")

_CLEARANCES = {"arrived": 1, "started": 2}


@dataclass(frozen=True)
class Move:
    """A step of the plan in which a robot changes its cell. `robot` counts from 0 and `tick` from 1; `start` is the cell
    that it leaves, and `to` the cell to which it moves.
    """

    robot: int
    start: int
    to: int
    tick: int


@dataclass(frozen=True)
class Whereabouts:
    """Where a robot is. `cell` is the one that it reached last: it stands there, or is leaving it. `bound_for` is the cell
    to which it is under way, None if it is not. `left` is how many planned moves it has still to begin.
    """

    cell: int
    bound_for: Optional[int]
    left: int


@dataclass(frozen=True)
class Progress:
    """How far an execution has come: how many steps were planned, how many planned steps there are from the first with a
    move that is not reached (0 if all are reached), and whether a further step may be planned.
    """

    steps: int
    behind: int
    has_room: bool


def _move_of(told: CMove) -> Move:
    return Move(int(told.robot), int(getattr(told, "from")), int(told.to), int(told.tick))


class Execution(Uncopied):
    """The execution of a plan, of any planner, by robots that are not in step (docs/EXECUTION.md).

        run = Execution(cells=4, placement=[0, 1])
        run.plan([1, 2])
        for move in iter(run.begin, None):
            send(move.robot, move.to)
        ...
        run.reached(1)              # and then `begin` again

    The plan begins on the cells `placement`, by robot, on a map whose cells have the numbers below `cells`. `clearance` says
    when a cell is clear: once the robot on it has "arrived" on its next one, or has "started" to leave. At most `ahead` steps
    are planned that are not reached. Raises Refused with "no-placement" or "bad-window", OutOfRange for any other clearance,
    NoMemory, and Missing if the library is not found. Any thread may call; calls are made one after the other. After `close`
    each call is refused with "not-open".
    """

    def __init__(
        self, cells: int, placement: "Numbers", clearance: "ClearanceName" = "arrived", ahead: int = 10,
        *, built: Optional[Place] = None,
    ) -> None:
        self._library = load(built)
        self._lock = threading.Lock()
        self._execution = CExecution()
        if clearance not in _CLEARANCES:
            raise OutOfRange(f"a clearance is 'arrived' or 'started', and not {clearance!r}")
        check(self._library.nashirudder_execution_open(
            whole_number("cells", cells), c_cells("a cell of the placement", placement), len(placement), _CLEARANCES[clearance],
            whole_number("ahead", ahead), byref(self._execution)))

    def _call(self, name: str, *arguments: Any) -> int:
        with self._lock:
            code: int = getattr(self._library, "nashirudder_execution_" + name)(byref(self._execution), *arguments)
            return code

    def close(self) -> None:
        """Frees what the execution owns. Later calls of `close` do nothing."""
        with self._lock:
            self._library.nashirudder_execution_close(byref(self._execution))

    def __enter__(self: E) -> E:
        return self

    def __exit__(self, *_: object) -> None:
        self.close()

    def __del__(self) -> None:
        if getattr(self, "_execution", None) is not None:
            self.close()

    def plan(self, to: "Numbers") -> None:
        """Plans a further step, to a cell for each robot. Raises Refused with "window-full" where `has_room` is False, and
        with "no-step" where it is no step, free of conflicts, from the placement that was planned last.
        """
        check(self._call("plan", c_cells("a cell of the step", to), len(to)))

    def begin(self) -> Optional[Move]:
        """The next move that may begin, which begins with this call; None if none may. Each is returned once."""
        begun = CMove()
        code = self._call("begin", byref(begun))
        if code == Code.NO_MOVE:
            return None
        check(code)
        return _move_of(begun)

    def reached(self, robot: int) -> Optional[Move]:
        """Takes the report that a robot has reached the cell to which it is under way, and returns its move; None if it is
        not under way.
        """
        ended = CMove()
        code = self._call("reached", whole_number("robot", robot), byref(ended))
        if code == Code.NOT_UNDER_WAY:
            return None
        check(code)
        return _move_of(ended)

    def whereabouts(self, robot: int) -> Optional[Whereabouts]:
        """Where a robot is; None if there is no robot of this number."""
        found = CWhereabouts()
        code = self._call("whereabouts", whole_number("robot", robot), byref(found))
        if code == Code.NO_ROBOT:
            return None
        check(code)
        return Whereabouts(int(found.cell), int(found.bound_for) if found.is_under_way else None, int(found.left))

    def progress(self) -> Progress:
        """How far it has come."""
        told = CProgress()
        check(self._call("progress", byref(told)))
        return Progress(int(told.steps), int(told.behind), bool(told.has_room))

    @property
    def has_room(self) -> bool:
        """Whether a further step may be planned."""
        return self.progress().has_room

"""What comes in, checked before it becomes a line, and what goes out, for the OpenAPI description."""

import re
from typing import List, Optional

from pydantic import BaseModel, Extra, Field, conint, constr, validator

# a key is printed by some programs: no blanks, no controls
KEY = r"^[!-~]{1,128}$"
_Number = conint(strict=True, ge=0, lt=2**32)


class NewErrand(BaseModel, extra=Extra.forbid):
    """Robot `robot` is to come to the cell `cell`. Cells count row by row from 0."""

    robot: _Number  # type: ignore[valid-type]
    cell: _Number  # type: ignore[valid-type]


class SocketErrand(NewErrand):
    """The same over a WebSocket, with the key in it."""

    key: Optional[constr(strict=True, max_length=128, regex=KEY)] = None  # type: ignore[valid-type]

    @validator("key")
    def has_no_line_feed(cls, key: Optional[str]) -> Optional[str]:
        """`$` also stands before a line feed at the end."""
        if key is not None and not re.fullmatch(KEY, key):
            raise ValueError("a key has no line feed")
        return key


class ErrandView(BaseModel):
    """An errand. `kept` is true once it has a verdict: then what `state` says is on the fleet's disk, and stands whatever dies."""

    id: int
    robot: int
    cell: int
    state: str = Field(..., regex="^(posted|accepted|arrived|withdrawn|refused|lost)$")
    reason: Optional[str]
    tick: Optional[int]
    key: Optional[str]
    kept: bool


class ErrandList(BaseModel):
    """`next` is the `after` of the next page, or null if this is the last one."""

    errands: List[ErrandView]
    next: Optional[int]


class VehicleView(BaseModel):
    """A robot's vehicle. `cell` is the one that it reached last, `bound_for` the one to which it is released, and `planned` how many moves come
    after that. `trouble` keeps it from being sent on. `speed`, the greatest in metres a second, and `length` and `width` in metres are those of its factsheet; null without one.
    `factsheet_fault` is what is wrong with the last one."""

    robot: int
    vehicle: str
    cell: Optional[int]
    bound_for: Optional[int]
    planned: int
    trouble: Optional[str]
    speed: Optional[float]
    length: Optional[float]
    width: Optional[float]
    factsheet_fault: Optional[str]


class VehicleList(BaseModel):
    """`is_set` is false until each vehicle stands where the plan can go on."""

    is_set: bool
    vehicles: List[VehicleView]


class RobotView(BaseModel):
    """A robot. `goal` and `wait`, in ticks, are null without an errand. `eldest`: no robot has waited longer."""

    robot: int
    cell: int
    state: str = Field(..., regex="^(free|busy|shut)$")
    errands: int
    goal: Optional[int]
    wait: Optional[int]
    eldest: bool


class RobotList(BaseModel):
    tick: int
    robots: List[RobotView]


class SiteView(BaseModel):
    """The map by rows, and how the fleet runs."""

    name: str
    version: str
    width: int
    height: int
    rows: List[str]
    robots: int
    period_ms: float
    planner: str = Field(..., regex="^(plain|turns)$")
    queue: int
    tick: int


class Health(BaseModel):
    is_ready: bool
    trouble: str
    tick: int
    unanswered: int


class Problem(BaseModel):
    """`error` is a word, `detail` a sentence."""

    error: str
    detail: str


class Done(BaseModel):
    done: str

"""Orders of clients in a list, for `Handle.take_many`."""

from dataclasses import dataclass
from typing import Union

from .calls import COrder
from .ranges import long_number, whole_number

GO, _CLOSE, _WITHDRAW = 1, 2, 3


@dataclass(frozen=True)
class Go:
    """A client orders a robot to a cell."""

    robot: int
    cell: int
    client: int = 0

    def _in_c(self) -> COrder:
        robot, cell = whole_number("robot", self.robot), whole_number("cell", self.cell)
        return COrder(0, GO, whole_number("client", self.client), robot, cell)


@dataclass(frozen=True)
class CloseClient:
    """A client's last order."""

    client: int = 0

    def _in_c(self) -> COrder:
        return COrder(0, _CLOSE, whole_number("client", self.client), 0, 0)


@dataclass(frozen=True)
class Withdraw:
    """A client gives up its accepted errand of that number."""

    number: int
    client: int = 0

    def _in_c(self) -> COrder:
        number = long_number("the errand's number", self.number)
        return COrder(number, _WITHDRAW, whole_number("client", self.client), 0, 0)


AnyOrder = Union[Go, CloseClient, Withdraw]

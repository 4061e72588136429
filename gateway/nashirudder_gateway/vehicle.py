"""One vehicle, as its messages tell it."""

from collections import deque
from dataclasses import dataclass, field
from typing import Deque, Optional

from .vda5050 import ONLINE, Message, Name, PhysicalParameters, State, Stop, cell_of

# What keeps a vehicle from being sent on, in the order in which it is said
UNKNOWN, AWAY, OFFLINE, MANUAL, STOPPED, REJECTED, ELSEWHERE = (
    "no-state", "no-connection", "offline", "not-automatic", "stopped", "order-rejected", "elsewhere")
_REJECTIONS = ("validationError", "noRouteError", "orderError", "orderUpdateError")


@dataclass
class Vehicle:
    """`reached` is the node that it has reached, as far as it is known, `released` the one that it may go to, which may be the same, and `ahead` are
    the stops that are planned after that."""

    name: Name
    robot: int
    reached: Stop = Stop(0, 0)
    released: Stop = Stop(0, 0)
    connection: Optional[str] = None
    state: Optional[State] = None
    # what the last factsheet that was good says, and what is wrong with one that came after that
    body: Optional[PhysicalParameters] = None
    factsheet_fault: Optional[str] = None
    ahead: Deque[Stop] = field(default_factory=deque)
    # the number of its last header, when it was sent last, and whether a release waits for it
    header_id: int = 0
    sent_at: float = 0.0
    is_held: bool = False
    is_elsewhere: bool = False

    @property
    def cell(self) -> Optional[int]:
        """The cell that it says it reached last."""
        return None if self.state is None else cell_of(self.state.lastNodeId)

    @property
    def is_under_way(self) -> bool:
        """Whether it is released to a node that it has not reached."""
        return self.released != self.reached

    @property
    def is_at_rest(self) -> bool:
        return self.state is not None and not self.state.driving and not any(it.released for it in self.state.nodeStates)

    def has_order(self, order_id: str) -> bool:
        """Whether it has taken the order up to the last release."""
        state = self.state
        return state is not None and state.orderId == order_id and state.orderUpdateId == self.released.sequence // 2

    @property
    def trouble(self) -> Optional[str]:
        """Why it is not sent on, or None."""
        if self.connection is None:
            return AWAY
        if self.connection != ONLINE:
            return OFFLINE
        if self.state is None:
            return UNKNOWN
        if self.state.operatingMode not in ("AUTOMATIC", "SEMIAUTOMATIC"):
            return MANUAL
        if self.state.safetyState.eStop != "NONE" or any(it.errorLevel == "FATAL" for it in self.state.errors):
            return STOPPED
        if any(it.errorType in _REJECTIONS for it in self.state.errors):
            return REJECTED
        return ELSEWHERE if self.is_elsewhere else None

    def view(self, is_set: bool) -> Message:
        """What a client is shown; `is_set` says whether the plan is carried out."""
        body = self.body
        return {"robot": self.robot, "vehicle": f"{self.name.manufacturer}/{self.name.serial}", "cell": self.cell,
                "bound_for": self.released.cell if is_set and self.is_under_way else None, "planned": len(self.ahead), "trouble": self.trouble,
                "speed": body and body.speedMax, "length": body and body.length, "width": body and body.width, "factsheet_fault": self.factsheet_fault}

"""An errand that a client of the gateway posted."""

from dataclasses import dataclass
from typing import Any, Dict, Optional, Tuple

POSTED, ACCEPTED, ARRIVED, WITHDRAWN, REFUSED, LOST = "posted", "accepted", "arrived", "withdrawn", "refused", "lost"
OPEN = (POSTED, ACCEPTED)


@dataclass(eq=False)
class Errand:
    """The fields are the columns of the journal's table, in its order."""

    id: int
    owner: str
    key: Optional[str]
    robot: int
    cell: int
    # the number of the order at the fleet, and of the errand among the accepted ones
    number: Optional[int] = None
    accepted: Optional[int] = None
    state: str = POSTED
    reason: Optional[str] = None
    tick: Optional[int] = None
    # seconds since 1970, of the last change
    changed: float = 0.0
    # no columns: whether the disk has it, and the WebSocket that posted it
    is_written: bool = False
    seat: Any = None

    @classmethod
    def of_row(cls, row: Tuple[Any, ...]) -> "Errand":
        errand = cls(*row)
        errand.is_written = True
        return errand

    @property
    def is_open(self) -> bool:
        """Whether anything can change it any more."""
        return self.state in OPEN

    def row(self) -> Tuple[Any, ...]:
        return (self.id, self.owner, self.key, self.robot, self.cell, self.number, self.accepted, self.state, self.reason,
                self.tick, self.changed)

    def view(self) -> Dict[str, Any]:
        """What its client is shown."""
        return {"id": self.id, "robot": self.robot, "cell": self.cell, "state": self.state, "reason": self.reason,
                "tick": self.tick, "key": self.key, "kept": self.state != POSTED}

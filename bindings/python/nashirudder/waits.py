"""How long robots have waited, by what the program says of orders and arrivals."""

from typing import Dict, Tuple

from .records import Arrival, OpenErrand


class Waits:
    """When errands that are under way were accepted, and when each robot last arrived: in ticks made so far."""

    def __init__(self) -> None:
        self._accepted: Dict[Tuple[int, int], int] = {}
        self._arrived: Dict[int, int] = {}

    def accepted(self, client: int, number: int, now: int) -> None:
        """Notes that the client's errand of that number was accepted."""
        self._accepted[client, number] = now

    def withdrawn(self, client: int, number: int) -> None:
        """Notes that the errand was withdrawn."""
        self._accepted.pop((client, number), None)

    def arrived(self, arrival: Arrival) -> None:
        """Notes an arrival."""
        self._accepted.pop((arrival.client, arrival.number), None)
        self._arrived[arrival.robot] = arrival.tick

    def wait_of(self, front: OpenErrand, now: int) -> int:
        """How long the robot has waited whose front errand this is: since that was accepted, or since the robot's last
        arrival, whichever is later.
        """
        since = self._accepted.get((front.client, front.number), 0)
        return now - max(since, self._arrived.get(front.robot, 0))

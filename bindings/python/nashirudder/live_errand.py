"""An errand of a fleet in real time."""

from typing import Optional

from .errors import Waiting
from .orders import AnyErrand
from .records import Arrival


class LiveErrand(AnyErrand):
    """A robot of a fleet in real time is to come to a cell, as a client asked.

    `client`, `robot` and `cell` are the numbers that `go` was given.
    """

    def accepted(self, timeout: Optional[float] = None) -> int:
        """The errand's number among its client's accepted ones, from 1. Waits `timeout` seconds at most for the verdict.

        Raises OrderRefused with the verdict's name if it was refused, Waiting if the time went by, and Ended if the
        fleet ended before.
        """
        self._fleet._wait_for_verdict(self, timeout)
        return self._accepted()

    def arrived(self, timeout: Optional[float] = None) -> Arrival:
        """The arrival. Waits for it, at most `timeout` seconds. Raises as `accepted` does, and OrderRefused with
        "withdrawn" if it was withdrawn.
        """
        self.accepted(timeout)
        self._fleet._program.wait(lambda: self._is_withdrawn or self._arrival is not None, timeout)
        arrival = self._come()
        if arrival is None:
            raise Waiting("the time went by")
        return arrival

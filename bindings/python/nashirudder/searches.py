"""Searches of a `Handle` between two ticks, so that a program with frames spreads them."""

import ctypes
import time
from ctypes import byref
from typing import Callable

from .calls import check


class Searches:
    """The calls nashirudder_search_one and nashirudder_missing."""

    _call: Callable[..., int]

    def search_one(self) -> int:
        """Searches the field of one robot's goal as far as the next tick will need it.

        Returns how many are still to be searched: after 0 the next tick is planned without a search. Nothing else changes.
        """
        missing = ctypes.c_size_t()
        check(self._call("search_one", byref(missing)))
        return missing.value

    def search(self, seconds: float) -> int:
        """The same until none is left or these seconds are over, which is looked at before each search. Returns how many
        are left.
        """
        over = time.monotonic() + seconds
        missing = self.missing()
        while missing > 0 and time.monotonic() < over:
            missing = self.search_one()
        return missing

    def missing(self) -> int:
        """How many robots' fields are still to be searched before the next tick."""
        missing = ctypes.c_size_t()
        check(self._call("missing", byref(missing)))
        return missing.value

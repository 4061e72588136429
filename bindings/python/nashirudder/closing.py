"""What is closed at the end of its `with` block."""

import abc
import sys
import warnings
import weakref
from typing import Any, Optional, TypeVar

from .errors import FleetError
from .uncopied import Uncopied

Self = TypeVar("Self", bound="Closing")


class Closing(Uncopied, abc.ABC):
    """`with` and `async with` return the fleet and close it at the end of the block. A fleet that is dropped unclosed is
    ended, with a ResourceWarning; it is neither copied nor pickled.
    """

    def __init__(self) -> None:
        # The errands that somebody awaits
        self._awaited: "weakref.WeakSet[Any]" = weakref.WeakSet()

    @abc.abstractmethod
    def _why_over(self) -> Optional[FleetError]:
        """What there is to raise if the fleet is closed or ended, or None."""

    def _tell_awaited(self) -> None:
        """Lets those who await errands look again."""
        for errand in list(self._awaited):
            errand._tell()

    @abc.abstractmethod
    def close(self, timeout: Optional[float] = None) -> None:
        """Ends the fleet."""

    @abc.abstractmethod
    def _is_left_open(self) -> bool:
        """Whether it was opened in this process, and not closed."""

    @abc.abstractmethod
    def _let_end(self) -> None:
        """Has it ended, without waiting for that. Nobody has the fleet any more."""

    def __del__(self) -> None:
        if sys.is_finalizing() or not self._is_left_open():
            return
        warnings.warn(f"a {type(self).__name__} was dropped that was not closed", ResourceWarning, source=self)
        self._let_end()

    async def __aenter__(self: Self) -> Self:
        return self

    async def __aexit__(self, kind: Any, *_: object) -> None:
        import asyncio

        try:
            await asyncio.get_running_loop().run_in_executor(None, self.close)
        except FleetError:
            # What happened within the block says more.
            if kind is None:
                raise

    def __enter__(self: Self) -> Self:
        return self

    def __exit__(self, kind: Any, *_: object) -> None:
        try:
            self.close()
        except FleetError:
            # What happened within the block says more.
            if kind is None:
                raise

"""The thread in which `on_tick` of a fleet in real time is called."""

import queue
import sys
import threading
from typing import Callable, List, Optional, Tuple

from .errors import Ended

OnTick = Callable[[int, List[int]], None]


class Caller:
    """Calls `on_tick`, in a thread of its own, in which it may call the fleet."""

    def __init__(self, on_tick: OnTick, is_closed: Callable[[], bool]) -> None:
        self._on_tick, self._is_closed = on_tick, is_closed
        self._ticks: "queue.Queue[Optional[Tuple[int, List[int]]]]" = queue.Queue(maxsize=1024)
        self._thread = threading.Thread(target=self._call, daemon=True)

    def start(self) -> None:
        """Lets calls be made. Ticks that were told before wait for it: the fleet is whole only then."""
        self._thread.start()

    def tell(self, tick: int, cells: List[int]) -> None:
        """Lets it be called. If it is far behind, the oldest tick is left out."""
        while True:
            try:
                self._ticks.put_nowait((tick, cells))
                return
            except queue.Full:
                try:
                    self._ticks.get_nowait()
                except queue.Empty:
                    pass

    def _call(self) -> None:
        while True:
            told = self._ticks.get()
            if told is None:
                return
            try:
                self._on_tick(*told)
            except Exception as error:
                # A tick that is told after the fleet was closed finds no fleet.
                if not (self._is_closed() and isinstance(error, Ended)):
                    threading.excepthook(threading.ExceptHookArgs((*sys.exc_info(), self._thread)))

    def end(self, timeout: Optional[float]) -> None:
        if self._thread.is_alive() and threading.current_thread() is not self._thread:
            self._ticks.put(None)
            self._thread.join(timeout)

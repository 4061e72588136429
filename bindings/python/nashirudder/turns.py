"""Calls that are made one after the other, and whole: by a thread of their own, or by the caller's."""

import os
import queue
import signal
import sys
import threading
import weakref
from typing import Any, Callable, List, Optional, Tuple, TypeVar, cast

from .errors import Ended, Late

T = TypeVar("T")

# In CPython the same functions as those of `signal`, without the enums that are made there at each call
handlers: Any = sys.modules.get("_signal", signal)


class _Call:
    """A call, and what it returned or raised."""

    def __init__(self, call: Callable[[], Any]) -> None:
        # A queue in the place of an event, which an exception of a signal handler may leave with a lock that is not held
        self._done: "queue.SimpleQueue[None]" = queue.SimpleQueue()
        self._call = call
        self._result: Any = None
        self._error: Optional[BaseException] = None
        # Whether the caller was interrupted, and waits no more
        self.is_left = False

    def make(self) -> None:
        try:
            self._result = self._call()
        except BaseException as error:
            self._error = error
        self._done.put(None)

    def result(self, timeout: Optional[float]) -> Any:
        """What the call returned, once it is done. Raises what it raised, or Late if it takes too long."""
        try:
            self._done.get(timeout=timeout)
        except queue.Empty:
            raise Late(f"not done in {timeout} seconds") from None
        except BaseException:
            self.is_left = True
            raise
        if self._error is not None:
            raise self._error
        return self._result


class _Present:
    """The call that is made just now."""

    call: Optional[_Call] = None


def _make_calls(calls: "queue.SimpleQueue[Optional[_Call]]", present: _Present) -> None:
    """Makes calls, to the end. It knows nothing of whose calls they are, and so keeps nobody alive."""
    while True:
        call = present.call = calls.get()
        if call is None:
            return
        call.make()
        del call
        present.call = None


def need_own_process(opened_in: int) -> None:
    """Raises Ended in a process that was forked after the fleet was opened: its threads and pipes are the other one's."""
    if os.getpid() != opened_in:
        raise Ended(None, "the fleet was opened in another process, which forked this one")


class Turns:
    """A thread that makes calls in turn.

    Python's signal handlers run in the main thread alone: so a caller may be left by an exception of theirs, as Ctrl-C
    raises it, and the call is made whole all the same, unless it asks `stops` and ends by itself. The thread ends with
    this object.
    """

    def __init__(self) -> None:
        self.opened_in = os.getpid()
        self._calls: "queue.SimpleQueue[Optional[_Call]]" = queue.SimpleQueue()
        self._present = _Present()
        threading.Thread(target=_make_calls, args=(self._calls, self._present), name="fleet", daemon=True).start()
        self._end = weakref.finalize(self, self._calls.put, None)

    def stops(self) -> bool:
        """Of the call that asks, between two of its steps: whether its caller was interrupted."""
        return self._present.call is not None and self._present.call.is_left

    def make(self, call: Callable[[], T], timeout: Optional[float]) -> T:
        """Has a call made, after those before it, and returns what it returns. Raises Late if it takes too long."""
        need_own_process(self.opened_in)
        waiting = _Call(call)
        self._calls.put(waiting)
        return cast(T, waiting.result(timeout))


_NUMBERS = tuple(sorted(int(number) for number in signal.valid_signals() - {signal.SIGKILL, signal.SIGSTOP}))


class _HeldBack:
    """Python's signal handlers, held back in the main thread: signals that come meanwhile are noted."""

    def __init__(self) -> None:
        self._seen: Tuple[Any, ...] = ()
        self._own: List[Tuple[int, Any]] = []
        # The handlers in whose place `_note` is, or may be
        self._replaced: List[Tuple[int, Any]] = []
        self.noted: List[int] = []

    def _note(self, number: int, _frame: Any) -> None:
        self.noted.append(number)

    def hold(self) -> None:
        """Holds back each handler that is written in Python."""
        seen = tuple(map(handlers.getsignal, _NUMBERS))
        if seen != self._seen:
            self._own = [(number, handler) for number, handler in zip(_NUMBERS, seen) if callable(handler)]
            self._seen = seen
        for number, handler in self._own:
            self._replaced.append((number, handler))
            handlers.signal(number, self._note)

    def let_go(self) -> None:
        """Puts the handlers back. Those of noted signals run then, and may raise."""
        try:
            while self._replaced:
                handlers.signal(*self._replaced[-1])
                self._replaced.pop()
        except BaseException:
            # A handler that is back raised: the others are put back all the same.
            self.let_go()
            raise
        if self.noted:
            noted, self.noted = self.noted, []
            for number in dict.fromkeys(noted):
                signal.raise_signal(number)


class OwnTurns:
    """Calls that are made in turn, by the thread that asks for them.

    In the main thread Python's signal handlers are held back meanwhile, so that no exception of theirs, as Ctrl-C
    raises it, can leave a call half made. They run when it is done, or when it asks `stops`. A call with a time limit
    is made by a thread of its own.
    """

    def __init__(self) -> None:
        self.opened_in = os.getpid()
        # A handler may call the fleet in the moment in which it is held and nothing is done yet.
        self._lock = threading.RLock()
        self._held = _HeldBack()
        self._is_held = False
        self._thread: Optional[Turns] = None

    def stops(self) -> bool:
        """Of the call that asks, between two of its steps: lets signal handlers run, which may raise; and whether its
        caller was interrupted.
        """
        if self._is_held and self._held.noted:
            self._let_go()
            self._hold()
        return self._thread is not None and self._thread.stops()

    def make(self, call: Callable[[], T], timeout: Optional[float]) -> T:
        """Makes a call, after those before it, and returns what it returns. Raises Late if it takes too long."""
        need_own_process(self.opened_in)
        if timeout is None:
            return self._alone(call)
        if self._thread is None:
            self._thread = Turns()
        return self._thread.make(lambda: self._alone(call), timeout)

    def _hold(self) -> None:
        self._is_held = True
        self._held.hold()

    def _let_go(self) -> None:
        self._is_held = False
        self._held.let_go()

    def _alone(self, call: Callable[[], T]) -> T:
        with self._lock:
            if self._is_held or threading.get_ident() != threading.main_thread().ident:
                return call()
            try:
                self._hold()
                return call()
            finally:
                self._let_go()

"""A chapter that a `Handle` handed out."""

import threading
from ctypes import byref
from typing import Any, TypeVar

from .calls import CChapter
from .texts import text_by
from .uncopied import Uncopied


E = TypeVar("E", bound="EndedChapter")


class EndedChapter(Uncopied):
    """A chapter that a `Handle` handed out: its text can be made in another thread, while the fleet goes on.

    Any thread may call; calls are made one after the other. After `close` each call is refused with "not-open".
    """

    def __init__(self, library: Any) -> None:
        self._library = library
        self._lock = threading.Lock()
        self._chapter = CChapter()

    def trace(self) -> str:
        """The chapter's trace (docs/TRACE.md), without a line feed at its end."""
        with self._lock:
            return text_by(lambda *room: self._library.nashirudder_chapter_trace(byref(self._chapter), *room))

    def close(self) -> None:
        """Frees what the chapter owns. Later calls of `close` do nothing."""
        with self._lock:
            self._library.nashirudder_chapter_close(byref(self._chapter))

    def __enter__(self: E) -> E:
        return self

    def __exit__(self, *_: object) -> None:
        self.close()

    def __del__(self) -> None:
        self.close()

"""The pipes of a program that asyncio started."""

import asyncio
import os
import select
from collections import deque
from typing import Callable, Deque, List, Optional

# While more bytes than these wait to be written there is no room
MOST_WAITING = 65_536


class StreamPipes(asyncio.SubprocessProtocol):
    """`hear` and `complain` are called with what the program writes on its output and its error output, and `end` once, when
    it has ended and all was heard."""

    def __init__(self, hear: Callable[[bytes], None], complain: Callable[[bytes], None], end: Callable[[], None]) -> None:
        self._hear, self._complain, self._end = hear, complain, end

    def pipe_data_received(self, fd: int, data: bytes) -> None:
        if fd == 1:
            self._hear(data)
        else:
            self._complain(data)

    def connection_lost(self, exc: Optional[Exception]) -> None:
        self._end()


class WholeLines:
    """Writes lines into a pipe in pieces that the system takes whole or not at all. So a line is never cut where this process is killed: the program
    would take the beginning of a line for the whole one. `has_room` is set as long as more may be written."""

    def __init__(self, fd: int) -> None:
        self.has_room = asyncio.Event()
        self.has_room.set()
        self._fd, self._is_closed, self._waiting = fd, False, 0
        self._pieces: Deque[bytes] = deque()
        self._loop = asyncio.get_running_loop()
        os.set_blocking(fd, False)

    def write(self, lines: List[str]) -> None:
        """Writes lines, or keeps them until the pipe has room. Once closed it leaves them."""
        if self._is_closed:
            return
        is_writing, piece = bool(self._pieces), b""
        for line in map(str.encode, lines):
            if piece and len(piece) + len(line) > select.PIPE_BUF:
                self._keep(piece)
                piece = b""
            piece += line
        self._keep(piece)
        if not is_writing and not self._write_on():
            self._loop.add_writer(self._fd, self._go_on)

    def _keep(self, piece: bytes) -> None:
        self._pieces.append(piece)
        self._waiting += len(piece)

    def _go_on(self) -> None:
        if self._write_on():
            self._loop.remove_writer(self._fd)

    def _write_on(self) -> bool:
        """Writes what there is room for. Returns whether that was all."""
        try:
            while self._pieces:
                os.write(self._fd, self._pieces[0])
                self._waiting -= len(self._pieces.popleft())
        except BlockingIOError:
            pass
        except OSError:                         # nobody reads any more: the program has ended
            self._pieces.clear()
            self._waiting = 0
        if self._waiting > MOST_WAITING:
            self.has_room.clear()
        else:
            self.has_room.set()
        return not self._pieces

    def close(self) -> None:
        """Closes the pipe; what is not written yet is left."""
        if not self._is_closed:
            self._is_closed = True
            self._loop.remove_writer(self._fd)
            self._pieces.clear()
            os.close(self._fd)
            self.has_room.set()

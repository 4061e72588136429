"""The program `fleet`, spoken to over two pipes: what `Fleet` and `LiveFleet` share."""

import contextlib
import os
import queue
import subprocess
import tempfile
import threading
import time
import weakref
from typing import IO, Any, Callable, List, Optional, Sequence, TypeVar, cast

from .answers import Asked, chapter_in, end_of, errands_in, look_in
from .errors import Ended, FleetError, Late, Missing
from .orders import Order
from .turns import need_own_process

__all__ = ["Asked", "Program", "chapter_in", "end_of", "errands_in", "look_in", "silently"]

T = TypeVar("T")


class Program:
    """The program, and the lines that it is asked and answers.

    A thread writes, and another reads and takes in what is said. Python's signal handlers run in the main thread alone,
    so no exception of theirs can leave half a line written, or an answer half read. The threads do not keep the fleet alive
    whose methods `noted`, `hear` and `over` are.
    """

    def __init__(
        self,
        words: Sequence[str],
        timeout: Optional[float],
        noted: Callable[[Asked], str],
        hear: Callable[[List[str]], None],
        over: Callable[[], None],
    ) -> None:
        """Starts it. `noted` notes what is about to be asked, and returns its text; `hear` takes in a line; `over` is
        called when it says nothing any more.
        """
        self.timeout = timeout
        self.status: Optional[int] = None
        self.is_closed = False
        self.opened_in = os.getpid()
        self._is_dropped = False
        # Held while what was asked and heard changes, or is looked at
        self._lock = threading.RLock()
        # A queue for each caller that waits. An exception of a signal handler may leave a threading.Condition with a lock
        # that is not held.
        self._waiting: List["queue.SimpleQueue[None]"] = []
        self._noted, self._hear, self._over = weakref.WeakMethod(noted), weakref.WeakMethod(hear), weakref.WeakMethod(over)
        self._is_over = False
        # What it complained of, once all that is left of it was freed
        self._said: Optional[str] = None
        self._misheard: Optional[str] = None
        self._complaints = tempfile.TemporaryFile()
        try:
            # A session of its own: Ctrl-C in a terminal is for Python, which then closes the fleet.
            self.process = subprocess.Popen(
                words, stdin=subprocess.PIPE, stdout=subprocess.PIPE, stderr=self._complaints, start_new_session=True
            )
        except (OSError, ValueError) as error:
            self._complaints.close()
            raise Missing(f"{words[0]} cannot be started: {error}") from error
        self._outbox: "queue.SimpleQueue[Optional[Asked]]" = queue.SimpleQueue()
        self._writer = threading.Thread(target=self._write, daemon=True)
        self._reader = threading.Thread(target=self._read, daemon=True)
        self._writer.start()
        self._reader.start()

    # ---- the two threads

    def _write(self) -> None:
        """Writes what is asked, to the end."""
        stdin = cast(IO[bytes], self.process.stdin)
        while True:
            asked = self._outbox.get()
            try:
                if asked is None:
                    # A process that was forked may hold the pipe open: so the end of the input alone would not do.
                    stdin.write(b"quit\n")
                    stdin.close()
                    return
                with self._lock:
                    noted = self._noted()
                    text = "" if noted is None else noted(asked)
                    del noted
                stdin.write(text.encode())
                stdin.flush()
            except (OSError, ValueError):
                # Nobody reads any more. The reader meets the end of what is said, and that is what callers are told.
                if asked is None:
                    return

    def _read(self) -> None:
        """Takes in what the program says, to the end."""
        stdout = cast(IO[bytes], self.process.stdout)
        line = b""
        try:
            for line in stdout:
                if not line.endswith(b"\n"):
                    break
                with self._lock:
                    hear = self._hear()
                    if hear is not None:
                        hear(line.decode().split())
                    del hear
                    self._wake()
        except (ValueError, LookupError):
            # Another program, or one of another version.
            self._misheard = f"it said what is no line of the protocol: {line[:200]!r}"
            self.process.kill()
        finally:
            with self._lock:
                self._is_over = True
                self._wake()
                is_dropped = self._is_dropped
            over = self._over()
            if over is not None:
                over()
            del over
            if is_dropped:
                self._bury()

    def _bury(self) -> None:
        """Frees what is left of a program that nobody waits for."""
        self.process.wait()
        cast(IO[bytes], self.process.stdout).close()
        self._complaints.close()

    def drop(self) -> None:
        """Lets the program end, and does not wait for that."""
        with self._lock:
            is_over, self._is_dropped, self.is_closed = self._is_over, True, True
        self._outbox.put(None)
        if is_over:
            self._bury()

    def _wake(self) -> None:
        """Lets those who wait look again."""
        for news in self._waiting:
            if news.empty():
                news.put(None)

    # ---- calls

    def wait(self, done: Callable[[], bool], timeout: Optional[float] = None) -> bool:
        """Waits until that is so. Returns False if the time went by. Raises what the program ended with."""
        news: "queue.SimpleQueue[None]" = queue.SimpleQueue()
        deadline = None if timeout is None else time.monotonic() + timeout
        is_late = False
        try:
            with self._lock:
                self._waiting.append(news)
            while True:
                with self._lock:
                    if done():
                        return True
                    if self._is_over:
                        break
                if is_late:
                    return False
                try:
                    news.get(timeout=None if deadline is None else max(0.0, deadline - time.monotonic()))
                except queue.Empty:
                    is_late = True
        finally:
            with self._lock, contextlib.suppress(ValueError):
                self._waiting.remove(news)
        raise self._ended()

    @property
    def is_over(self) -> bool:
        """Whether it says nothing any more, or is closed."""
        return self._is_over or self.is_closed

    def put(self, asked: Asked) -> None:
        """Sends commands, and does not wait for their answers. Nobody is told if the program ended."""
        self._outbox.put(asked)

    def ask(self, *commands: str, order: Optional[Order] = None) -> List[List[List[str]]]:
        """Sends commands, and returns for each the lines of its answer, as words."""
        need_own_process(self.opened_in)
        if self.is_closed:
            raise Ended(self.status, "the fleet is closed")
        asked = Asked(commands, order)
        self.put(asked)
        if not self.wait(lambda: asked.is_done, self.timeout):
            raise Late(f"no answer in {self.timeout} seconds")
        for command, answer in zip(commands, asked.answers):
            if any(words[0] == "bad-line" for words in answer):
                raise FleetError(f"the program does not take the line {command!r}")
        return asked.answers

    def reply(self, command: str, read: Callable[[List[str]], T]) -> T:
        """Sends a command that is answered by one line, and returns what its words say by `read`."""
        words = self.ask(command)[0][:1]
        try:
            return read(words[0])
        except (ValueError, LookupError):
            raise Ended(None, f"to {command!r} it said what is no line of the protocol: {words}") from None

    def _complaint(self) -> str:
        if self._said is not None or self._misheard is not None:
            return self._said or self._misheard or ""
        self._complaints.seek(0)
        said = self._complaints.read().decode(errors="replace").strip()
        # How a fleet starts is no complaint.
        return "\n".join(line for line in said.split("\n") if not line.startswith(("fleet: begins anew", "fleet: goes on from ")))

    def why_over(self) -> Optional[FleetError]:
        """What there is to raise if the program ended, or None as long as it did not."""
        with self._lock:
            is_over = self.is_over
        return self._ended() if is_over else None

    def _ended(self) -> FleetError:
        """What there is to raise if the program ended."""
        if self.is_closed:
            return Ended(self.status, "the fleet is closed")
        self.status = self.process.wait()
        try:
            complaint = self._complaint()
        except ValueError:    # another thread closed the fleet meanwhile
            return Ended(self.status, "the fleet is closed")
        return end_of(self.status, complaint)

    def has_ended(self) -> bool:
        """Whether it ended by itself, or was killed. Then all that it said was taken in, and it holds nothing any more; each
        call goes on to raise what it ended with.
        """
        if not self._is_over and self.process.poll() is None:
            return False
        self._outbox.put(None)
        for thread in (self._reader, self._writer):
            thread.join()
        self.status = self.process.wait()
        self._said = self._complaint()
        for file in (self.process.stdin, self.process.stdout, self._complaints):
            with contextlib.suppress(OSError):
                cast(IO[bytes], file).close()
        return True

    def kill(self) -> None:
        """Kills it. `has_ended` returns True then."""
        self.process.kill()
        self.process.wait()

    def end(self, timeout: Optional[float]) -> str:
        """Lets the program end, and returns what it complained of. Raises Late if it had to be killed."""
        self._outbox.put(None)
        was_killed = False
        try:
            self.status = self.process.wait(timeout)
        except subprocess.TimeoutExpired:
            self.process.kill()
            self.status = self.process.wait()
            was_killed = True
        self.is_closed = True
        self._reader.join()
        cast(IO[bytes], self.process.stdout).close()
        complaint = self._complaint()
        self._complaints.close()
        if was_killed:
            raise Late(f"the program did not end in {timeout} seconds, and was killed")
        return complaint

    def close(self, timeout: Optional[float]) -> None:
        """Ends the program, if it was not ended before. Raises Late, and what it ended with if that is neither 0 nor 8.
        """
        if self.is_closed or os.getpid() != self.opened_in:
            return
        complaint = self.end(timeout)
        if self.status not in (0, 8):
            raise end_of(self.status, complaint)


def silently(call: Callable[[], Any]) -> None:
    """Makes a call in whose failure nobody is interested, since there is a reason before it."""
    try:
        call()
    except FleetError:
        pass

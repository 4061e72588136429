"""The folder that a fleet in this process keeps its chapters in: the rules are those of `fleet talk --traces`
(docs/PROTOCOL.md).
"""

import errno
import fcntl
import os
import pathlib
import re
import stat
from dataclasses import dataclass
from typing import IO, Optional, Set

from .errors import FileFailed

_MOST_BYTES = 2**30


@dataclass(frozen=True)
class KeptChapter:
    """The file of a chapter: the chapter's number by its name, the name, and what is in it."""

    number: int
    name: str
    text: bytes


class ChapterFolder:
    """A folder for one fleet alone. It is locked as long as the fleet is open.

    It has no chapters, or, with `resume`, the fleet goes on from the last of them, `last`.
    """

    last: Optional[KeptChapter] = None

    def __init__(self, path: str, resume: bool = False) -> None:
        """Raises FileFailed if it is not there, cannot be written or belongs to another fleet that is open. Without
        `resume` it does so if the folder has chapters, and with it if a file is nearly named as a chapter, one is
        missing between two others, or the last one cannot be read.
        """
        self._path = pathlib.Path(path).absolute()
        self._lock = self._locked(path)
        try:
            self._try(path)
            if resume:
                self.last = self._last()
            else:
                self._need_none(path)
        except FileFailed:
            self.let_go()
            raise

    def _locked(self, path: str) -> IO[str]:
        """The file of the lock, which is never removed, so that all programs lock the same one."""
        name = self._path / "fleet.lock"
        try:
            for _ in range(16):
                if os.path.lexists(name) and not stat.S_ISREG(os.lstat(name).st_mode):
                    raise FileFailed(f"the folder {path} cannot be written: fleet.lock is no file")
                lock = open(name, "a")
                try:
                    fcntl.flock(lock, fcntl.LOCK_EX | fcntl.LOCK_NB)
                except OSError:
                    lock.close()
                    break
                if os.path.exists(name) and os.path.samestat(os.fstat(lock.fileno()), os.stat(name)):
                    return lock
                lock.close()
        except OSError as error:
            raise FileFailed(f"the folder {path} cannot be written: {error}") from error
        raise FileFailed(f"the folder {path} is in use by another fleet")

    def _try(self, path: str) -> None:
        """Writes a file into the folder, down to the disk, and removes it."""
        trial = self._path / "fleet.part"
        try:
            with open(trial, "w") as file:
                file.write("\n" * 4096)
                file.flush()
                os.fsync(file.fileno())
            trial.unlink()
        except OSError as error:
            if trial.exists():
                trial.unlink()
            raise FileFailed(f"the folder {path} cannot be written: {error}") from error

    def _need_none(self, path: str) -> None:
        if any(self._path.glob("chapter-*.json")):
            raise FileFailed(f"the folder {path} has chapters of another fleet")

    def _numbers(self) -> Set[int]:
        """The numbers of the chapters that are there."""
        numbers = set()
        for file in self._path.glob("chapter-*.json"):
            digits = file.name[len("chapter-") : -len(".json")]
            if not re.fullmatch("0|[1-9][0-9]{0,9}", digits) or int(digits) >= 2**32:
                raise FileFailed(f"the fleet does not go on: {file}: no chapter has this name")
            numbers.add(int(digits))
        return numbers

    def _last(self) -> Optional[KeptChapter]:
        """The last chapter, if there is one."""
        numbers = self._numbers()
        if not numbers:
            return None
        first, number = min(numbers), max(numbers)
        file = self._path / f"chapter-{number}.json"
        if len(numbers) <= number - first:
            missing = next(one for one in range(number, first, -1) if one not in numbers)
            absent = self._path / f"chapter-{missing}.json"
            raise FileFailed(f"the fleet does not go on: {absent}: it is missing, and a later chapter is there")
        try:
            if not stat.S_ISREG(file.lstat().st_mode):
                raise OSError("it is a pipe, a link or a folder")
            if file.stat().st_size > _MOST_BYTES:
                raise OSError("it has more than 1,073,741,824 bytes")
            return KeptChapter(number, str(file), file.read_bytes())
        except OSError as error:
            raise FileFailed(f"the fleet does not go on: {file}: it cannot be read: {error}") from error

    def write(self, number: int, text: str) -> None:
        """Writes a chapter next to its place, down to the disk. Raises FileFailed, and leaves nothing there, if that
        fails.
        """
        try:
            with open(self._part(number), "w") as file:
                file.write(text + "\n")
                file.flush()
                os.fsync(file.fileno())
        except OSError as error:
            self.drop(number)
            raise FileFailed(f"the chapter chapter-{number}.json in {self._path} cannot be written: {error}") from error

    def keep(self, number: int) -> None:
        """Puts the chapter that was written into its place, whole."""
        try:
            self._place(self._part(number), self._path / f"chapter-{number}.json")
            folder = os.open(self._path, os.O_RDONLY)
            try:
                os.fsync(folder)
            finally:
                os.close(folder)
        except OSError as error:
            self.drop(number)
            raise FileFailed(f"the chapter chapter-{number}.json in {self._path} cannot be written: {error}") from error

    @staticmethod
    def _place(part: pathlib.Path, name: pathlib.Path) -> None:
        """Gives a file this name, which nothing has yet."""
        try:
            os.link(part, name)
        except OSError as error:
            if error.errno not in (errno.EPERM, errno.EOPNOTSUPP, errno.ENOSYS) or os.path.lexists(name):
                raise
            os.rename(part, name)
        else:
            part.unlink()

    def drop(self, number: int) -> None:
        """Removes a chapter that was written and has no place."""
        try:
            self._part(number).unlink()
        except OSError:
            # It is not there, or the folder is not.
            pass

    def _part(self, number: int) -> pathlib.Path:
        return self._path / f"chapter-{number}.part"

    def let_go(self) -> None:
        """Lets other fleets have the folder."""
        self._lock.close()

"""What a fleet is opened with, as its caller says it: the same checks for each kind of fleet."""

import contextlib
import os
import re
import stat
import tempfile
from dataclasses import dataclass
from typing import Dict, Iterator, List, Literal, Optional, Sequence, Tuple, Union

from .errors import FileFailed, OutOfRange, Refused, refusal
from .finding import Place
from .ranges import checked_limits, limits_in, whole_number

__all__ = [
    "ENDLESS", "MapText", "Opening", "Planner", "Text", "Ties", "checked", "checked_planner", "journal_words", "keep_words", "limits_in", "map_text", "need_traces", "read_map",
    "sides_of", "text_of", "trace_words",
]

# The text of a map, or of a chapter
Text = Union[str, bytes]
# A map: its text, or the path of a file, which is no str
MapText = Union[str, bytes, "os.PathLike[str]"]
Ties = Literal["plain", "south"]
# How ticks are planned
Planner = Literal["plain", "turns"]

MOST_ROBOTS = 512
MOST_RECALL = 16_777_216
_MOST_SIDE = 1024

# Limits that are so great, if none are given, that no fleet meets them
ENDLESS = {"life": 2**40, "orders": 2**62, "clock": 2**48, "chapters": 2**32 - 1}


# The limits that fit the robots where nothing, or 0, is said
_FITTING = ("mailbox", "lane", "outlet")
# How many robots one client keeps busy with the limits of small fleets
_FEW_ROBOTS = 31
_MOST_PLACES = 65_536


def fitting(robots: int) -> Dict[str, int]:
    """The limits, if none are given, with which one client can send an errand to each robot and another after it."""
    if robots <= _FEW_ROBOTS:
        return {}
    return dict.fromkeys(_FITTING, min(2 * robots + 2, _MOST_PLACES))


def sides_of(text: bytes) -> Tuple[int, int]:
    """The height and width that the head of a map's text says; zeros if the head is at fault."""
    form, head = rb"^%s[ \t]+0*(\d{1,4})[ \t]*\r?$", b"\n".join(text.split(b"\n", 4)[:4])
    found = [re.search(form % word, head, re.M) for word in (b"height", b"width")]
    height, width = (0 if side is None else int(side[1]) for side in found)
    return (height, width) if height <= _MOST_SIDE and width <= _MOST_SIDE else (0, 0)


def _first_pair(robots: List[int]) -> Tuple[int, int]:
    """The first two robots that start on one cell."""
    first: Dict[int, int] = {}
    return min((first[cell], robot) for robot, cell in enumerate(robots) if first.setdefault(cell, robot) != robot)


def _first_blocked(text: bytes, robots: List[int]) -> int:
    """The first robot that does not start on floor, of a map without a fault."""
    (height, width), rows = sides_of(text), text.split(b"\n")[4:]
    floor = {cell for cell in robots if cell < height * width and rows[cell // width][cell % width] in b".GS"}
    return next(robot for robot, cell in enumerate(robots) if cell not in floor)


@dataclass(frozen=True)
class Opening:
    """The words of a fleet's constructor, checked."""

    map: Optional[str]
    text: Optional[bytes]
    robots: List[int]
    clients: int
    ties: str
    traces: Optional[str]
    limits: Dict[str, int]

    def named(self, refused: Refused) -> Refused:
        """The refusal of this opening, with the robots that it names: the program's line does not tell them."""
        try:
            if refused.name == "start-shared":
                return refusal(refused.name, _first_pair(self.robots))
            if refused.name == "start-blocked":
                return refusal(refused.name, (_first_blocked(self.read_map(), self.robots), 0))
        except (FileFailed, LookupError):
            # The map was a pipe, or is another one now.
            pass
        return refused

    def read_map(self) -> bytes:
        """The map's text. Raises FileFailed if its file cannot be read."""
        if self.text is not None:
            return self.text
        return read_map(self.map or "")

    @contextlib.contextmanager
    def files(self) -> Iterator[List[str]]:
        """The words of the program for the map and the header lines: names of files, as long as they are needed."""
        with contextlib.ExitStack() as files:
            named = [] if self.map is None else [self.map]
            if self.text is not None:
                named.append(files.enter_context(_file_of(self.text, ".map")))
            named.append(files.enter_context(_file_of("".join(line + "\n" for line in self.head()).encode(), ".script")))
            yield named

    def head(self) -> List[str]:
        """The header lines of a conversation."""
        lines = ["robots " + " ".join(map(str, self.robots)), f"clients {self.clients}", f"ties {self.ties}"]
        return lines + [f"{name} {number}" for name, number in self.limits.items()]


@contextlib.contextmanager
def _file_of(text: bytes, suffix: str) -> Iterator[str]:
    """The name of a file with this text, as long as it is needed."""
    with tempfile.NamedTemporaryFile(suffix=suffix) as file:
        file.write(text)
        file.flush()
        yield file.name


def text_of(text: Text) -> bytes:
    """The bytes of a text."""
    return text.encode() if isinstance(text, str) else memoryview(text).tobytes()


def map_text(map: MapText) -> bytes:
    """The bytes of a map's text. Raises FileFailed if it is a path, and its file cannot be read."""
    return read_map(map) if isinstance(map, os.PathLike) else text_of(map)


def _no_map(path: Place, why: object) -> FileFailed:
    return FileFailed(f"the map {os.fsdecode(path)!r} cannot be read: {why}")


def need_file(path: Place) -> None:
    """Raises FileFailed if there is no file that can be read. It is not read here: it may be a pipe."""
    try:
        kind = os.stat(path).st_mode
    except (OSError, ValueError) as error:
        raise _no_map(path, error) from error
    if stat.S_ISDIR(kind) or not os.access(path, os.R_OK):
        raise _no_map(path, "it is a folder, or may not be read")


def read_map(path: Place) -> bytes:
    """The bytes of a map's file. Raises FileFailed if it cannot be read."""
    try:
        with open(path, "rb") as file:
            return file.read()
    except OSError as error:
        raise _no_map(path, error) from error


def trace_words(told: Opening, resume: bool) -> List[str]:
    """The words of the program that say where chapters are kept, and whether the fleet goes on from the last one there.
    """
    if told.traces is None:
        need_traces(told, resume)
        return []
    return ["--traces", told.traces, "--resume"] if resume else ["--traces", told.traces]


def keep_words(told: Opening, keep_every_ms: float) -> List[str]:
    """The words of the program that say how often a chapter is kept."""
    if told.traces is None:
        raise OutOfRange("a fleet that keeps a chapter so often has a folder for traces")
    return ["--keep-every", f"{round(keep_every_ms * 1000)}us"]


def journal_words(told: Opening, journal: bool, recall: Optional[int]) -> List[str]:
    """The words of the program that say whether it keeps a journal, and how many notices it tells again."""
    if journal and told.traces is None:
        raise OutOfRange("a fleet that keeps a journal has a folder for traces")
    if recall is None:
        return ["--journal"] * journal
    return ["--journal"] * journal + ["--recall", str(whole_number("recall", recall, most=MOST_RECALL))]


def need_traces(told: Opening, resume: bool) -> None:
    """Raises OutOfRange if a fleet is to go on and has no folder for traces."""
    if resume and told.traces is None:
        raise OutOfRange("a fleet that goes on has a folder for traces")


def checked_planner(planner: str) -> bool:
    """Whether the robots take turns. Raises OutOfRange for a word that is no planner's."""
    if planner not in ("plain", "turns"):
        raise OutOfRange(f'the planner is "plain" or "turns", and not {planner!r}')
    return planner == "turns"


def checked(
    map: Optional[Place], robots: Sequence[int], clients: int, ties: str, traces: Optional[Place], limits: Dict[str, int],
    text: Optional[Text] = None,
) -> Opening:
    """The words, checked. Raises OutOfRange, Refused with "robot-count", TypeError for a limit that there is not and
    where there is no map or two, and FileFailed.
    """
    if (map is None) == (text is None):
        raise TypeError("a fleet has either a map, the name of a file, or the text of one")
    if ties not in ("plain", "south"):
        raise OutOfRange(f'ties are "plain" or "south", and not {ties!r}')
    folder = None if traces is None else os.fsdecode(traces)
    if folder is not None and (not folder or "\0" in folder):
        raise OutOfRange(f"this is no name of a folder for traces: {folder!r}")
    cells = [whole_number("a start cell", cell) for cell in robots]
    number = whole_number("clients", clients)
    given = {name: limit for name, limit in checked_limits(limits).items() if limit > 0 or name not in _FITTING}
    told = Opening(
        None if map is None else os.fsdecode(map), None if text is None else text_of(text), cells, number, ties, folder,
        {**fitting(len(cells)), **given},
    )
    if not 1 <= len(cells) <= MOST_ROBOTS:
        raise refusal("robot-count", (0, 0))
    if map is not None:
        need_file(map)
    return told

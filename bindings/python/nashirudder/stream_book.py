"""What a stream asked, and the events that the program's lines tell."""

import asyncio
from collections import deque
from typing import Any, Deque, Dict, List, NamedTuple, Optional, Tuple

from .errors import FleetError
from .events import Arrived, Event, Moved, NotPosted, Posted, notice_in

# While this many events wait to be read, ticks are left out
MOST_EVENTS = 1000

Lines = List[List[str]]


class Asked(NamedTuple):
    """A line that was asked: `answer` is of one that posts no order."""

    answer: "Optional[asyncio.Future[Lines]]"
    client: int
    note: Any
    lines: Lines
    # the errand that is taken back
    errand: Optional[int] = None


class StreamBook:
    """Lines that have no answer yet, orders without a verdict and errands that are not done, and the events that were heard and not read yet. `ticks` is
    how many the fleet made, once it said so at its end."""

    def __init__(self) -> None:
        self.asked: Dict[bytes, Asked] = {}
        self.events: Deque[Event] = deque()
        self.ticks: Optional[int] = None
        self._marks = 0
        self._orders: Dict[Tuple[int, int], Asked] = {}
        self._errands: Dict[Tuple[int, int], Any] = {}
        self._seqs: Dict[int, int] = {}

    def note(self, line: str, asked: Asked) -> str:
        """The line as it is to be written, with a mark of its own."""
        self._marks += 1
        self.asked[b"@%d" % self._marks] = asked
        return f"@{self._marks} {line}\n"

    def take(self, line: bytes) -> None:
        """Takes in a line of the program. Raises ValueError or LookupError if it is none of the protocol."""
        words = line.split()
        if words[0] == b"collected":
            self._notice(words)
        elif words[0] == b"tick":
            if len(self.events) < MOST_EVENTS:
                self.events.append(Moved(int(words[1][:-1]), [int(word) for word in words[2:]]))
        elif words[0] == b"ended":
            self.ticks = int(words[1])
        elif words[0].startswith(b"@"):
            self._answer(words)
        else:
            raise ValueError(line)

    def _answer(self, words: List[bytes]) -> None:
        asked = self.asked[words[0]]
        if asked.answer is None:
            del self.asked[words[0]]
            if words[1] == b"posted":
                number = int(words[3])
                self._orders[asked.client, number] = asked
                self.events.append(Posted(asked.client, number, asked.note))
            else:
                name = words[4] if words[1] == b"post-refused" else words[1]
                self.events.append(NotPosted(asked.client, name.decode(), asked.note))
            return
        asked.lines.append([word.decode() for word in words[1:]])
        if words[1] in (b"collected", b"robot") or words[1] == b"open" and words[3] != b"end":
            return                              # further lines of this answer follow
        del self.asked[words[0]]
        if asked.answer.done():
            return
        if words[1] == b"bad-line":
            return asked.answer.set_exception(FleetError("the program does not take this line"))
        asked.answer.set_result(asked.lines)

    def _notice(self, words: List[bytes]) -> None:
        told = notice_in(words)
        if told.seq != self._seqs.get(told.client, told.seq - 1) + 1:
            raise ValueError("a notice was lost")
        self._seqs[told.client] = told.seq
        if isinstance(told, Arrived):
            self.events.append(told._replace(note=self._errands.pop((told.client, told.errand), None)))
            return
        asked = self._orders.pop((told.client, told.number), None)
        note = None if asked is None else asked.note
        if told.errand is not None:
            self._errands[told.client, told.errand] = note
        elif told.verdict == "withdrawn" and asked is not None and asked.errand is not None:
            self._errands.pop((told.client, asked.errand), None)     # it will not arrive
        self.events.append(told._replace(note=note))

    def end(self, why: FleetError) -> None:
        """The program has ended: what has no answer gets none."""
        for asked in self.asked.values():
            if asked.answer is not None and not asked.answer.done():
                asked.answer.set_exception(why)
        self.asked.clear()

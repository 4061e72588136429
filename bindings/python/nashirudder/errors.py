"""What the package raises.

    FleetError              every exception of this package
      OutOfRange            an argument is no number that a fleet can have (also a ValueError)
      Refused               the fleet, or a map, refuses; `name` says why
        OrderRefused        an order was taken and judged, and the verdict is a refusal
      Waiting               an order was posted and is not judged yet
      Late                  no answer within `timeout` seconds (also a TimeoutError)
      Ended                 the fleet is closed, or its program ended
      FileFailed            a file could not be read or written (also an OSError)
      NoMemory              there was not enough memory (also a MemoryError)
      Missing               the program or the library was not found (also a FileNotFoundError)

A keyword that no fleet has raises TypeError, as everywhere in Python.
"""

from typing import Optional, Tuple

from .names import CODE_OF, OF_PROTOCOL, Verdict, sentence_of


class FleetError(Exception):
    """What every exception of this package is."""


class OutOfRange(FleetError, ValueError):
    """An argument is no whole number, or one that no fleet can have. Nothing was done."""


class Refused(FleetError):
    """The fleet refused, and is as it was.

    `name` is the word for the reason, such as "chapter-full" or "start-blocked". `code` is its number in nashirudder.h,
    0 for a reason that is not there ("lane-full", "numbers-spent"). `numbers` are two numbers that the refusal of an
    opening or a map names, such as a line, a row or a robot, and 0 where it names fewer; it is empty otherwise.
    `sentence` says the reason, with the numbers that it names, in the words of nashirudder_message; it is empty for a
    reason that is not known.
    """

    def __init__(self, name: str, code: int = 0, numbers: Tuple[int, ...] = ()) -> None:
        super().__init__(name, code, numbers)
        self.name = name
        self.code = code
        self.numbers = numbers
        self.sentence = sentence_of(name, numbers)

    def __str__(self) -> str:
        return f"{self.name}: {self.sentence}" if self.sentence else self.name


class OrderRefused(Refused):
    """An order was taken and judged, and refused for the reason `name`: such as "blocked", "queue-full" or "too-late".

    The refusal is an entry of the history. `code` is the verdict's number in nashirudder.h. An errand that was
    withdrawn has the name "withdrawn".
    """


class Waiting(FleetError):
    """The order was posted and is not judged yet: its client's mailbox has no room until errands are done."""


class Late(FleetError, TimeoutError):
    """There was no answer in time. What was asked may still be done; its answer is then taken in."""


class Ended(FleetError):
    """The fleet is closed, or its program ended or cannot be spoken to.

    `status` is the status as in `Fleet.status`, None if there is none. `complaint` is what the program wrote on its
    error output.
    """

    def __init__(self, status: Optional[int], complaint: str) -> None:
        super().__init__(status, complaint)
        self.status = status
        self.complaint = complaint

    def __str__(self) -> str:
        return self.complaint or f"the program ended with status {self.status}"


class FileFailed(FleetError, OSError):
    """A map could not be read, a chapter could not be written, or a folder of chapters does not take those of this
    fleet.
    """


class NoMemory(FleetError, MemoryError):
    """There was not enough memory. A fleet in this process is as it was; over pipes the program has ended."""


class Missing(FleetError, FileNotFoundError):
    """The program `fleet` or the library was not found, or cannot be used. The text says where it was looked for, and
    how to get it.
    """


def refusal(word: str, numbers: Tuple[int, ...] = ()) -> Refused:
    """A refusal with this word, of nashirudder.h or of a line of the program."""
    name = OF_PROTOCOL.get(word, word)
    return Refused(name, int(CODE_OF.get(name, 0)), numbers)


def order_refusal(verdict: Verdict) -> OrderRefused:
    """What a verdict that is no wanted one raises."""
    return OrderRefused(verdict.word, int(verdict))

"""What the program `fleet` is asked over pipes, and what its lines say."""

from typing import List, Optional, Sequence

from .errors import Ended, FileFailed, FleetError, NoMemory, refusal
from .orders import Order
from .records import Chapter, Hello, Look, OpenErrand, Session, Standing


class Asked:
    """Commands that are sent together, the order that they post, if they do, and what was answered so far: lines, as
    words.
    """

    def __init__(self, commands: Sequence[str], order: Optional[Order] = None) -> None:
        self.commands = commands
        self.order = order
        self.answers: List[List[List[str]]] = [[]]
        self.is_done = False


def look_in(words: Sequence[str]) -> Look:
    """What a line `look ..` says."""
    at = words.index("at")
    named = dict(zip(words, words[1:at]))
    return Look(
        tick=int(named["tick"]),
        chapter=int(named["chapter"]),
        entries=int(named["entries"]),
        eldest=int(named["eldest"]) if "eldest" in named else None,
        within=int(named["within"]) if "within" in named else None,
        cells=[int(word) for word in words[at + 1 :]],
        blocked=int(named["blocked"]) if "blocked" in named else None,
    )


def chapter_in(words: Sequence[str]) -> Chapter:
    """What a line `chapter ..` says. Raises Refused if it is a refusal."""
    if words[0] == "chapter-refused":
        raise refusal(words[-1])
    return Chapter(int(words[1]), int(words[3]))


def errands_in(lines: Sequence[Sequence[str]]) -> List[OpenErrand]:
    """What lines `open ..` say. Raises Refused if they are a refusal."""
    if lines[0][0] == "no-client":
        raise refusal("no-client")
    told = [[int(word) for word in words[1::2]] for words in lines if words[2] == "number"]
    return [OpenErrand(client, number, robot, cell, place) for client, number, robot, cell, place in told]


def standings_in(lines: Sequence[Sequence[str]]) -> List[Standing]:
    """What lines `robot ..` say."""
    standings: List[Standing] = []
    for words in lines[:-1]:
        cell, goal, errands, wait = (int(word) for word in words[3:10:2])
        standings.append(Standing(words[10], cell, goal if errands else None, errands, wait if errands else None))
    return standings


def hello_in(words: Sequence[str]) -> Hello:
    """What a line `hello ..` says."""
    said = dict(zip(words[3::2], (int(word) for word in words[4::2])))
    return Hello(words[2], **said)


def session_in(words: Sequence[str]) -> Session:
    """What a line `session ..` says. Raises Refused if it is a refusal."""
    if words[0] == "no-client":
        raise refusal("no-client")
    return Session(orders=int(words[3]), notices=int(words[5]), told_from=int(words[8]), is_closed=words[10] == "true")


def end_of(status: Optional[int], complaint: str) -> FleetError:
    """What there is to raise if the program ended with this status, and wrote this on its error output."""
    words = complaint.split()
    if words[:2] == ["fleet:", "opening"]:
        return refusal(words[-1])
    if status == 4 and words[:2] == ["fleet:", "map"]:
        numbers = [int(word) for word in words[3:]] + [0, 0]
        return refusal(f"map-{words[2]}", (numbers[0], numbers[1]))
    if status == 3:
        return FileFailed(f"a file could not be read or written: {complaint}")
    if status == 6:
        return FileFailed(f"the fleet does not go on: {complaint}")
    if status == 7:
        return NoMemory(complaint)
    return Ended(status, complaint)

"""The words for what a fleet refuses: those of nashirudder.h, which both forms of the package use."""

import enum
from typing import Dict, List, Optional, Tuple


def _word_of(name: str) -> str:
    return name.lower().replace("_", "-")


class Code(enum.IntEnum):
    """What a call of the library answers, by its number in nashirudder.h. `word` is its word, such as "chapter-full".
    """

    DONE = 0
    NO_MEMORY = 1
    NOT_OPEN = 2
    ALREADY_OPEN = 3
    NO_CLIENT = 4
    NO_ROBOT = 5
    MAILBOX_FULL = 6
    CHAPTER_FULL = 7
    CLOCK_SPENT = 8
    ALREADY_SHUT = 9
    BOOK_SPENT = 10
    NO_NOTICE = 11
    TOO_WIDE = 12
    IDLE = 13
    HAS_BRIDGE = 14
    WRONG_LENGTH = 15
    NULL_POINTER = 16
    BAD_ORDER = 17
    NO_ROOM = 18
    CHAPTER_BEGUN = 19
    MAP_HEADER = 20
    MAP_SIZE = 21
    MAP_ROW = 22
    MAP_CELL = 23
    MAP_TRAILING = 24
    BAD_SETUP = 30
    ROBOT_COUNT = 31
    START_BLOCKED = 32
    START_SHARED = 33
    WRONG_SIZE = 34
    NO_TURNS = 35
    TOO_MANY = 40
    FROM_BLOCKED = 41
    FROM_SHARED = 42
    TO_LENGTH = 43
    OFF_FLOOR = 44
    NOT_ADJACENT = 45
    VERTEX_CONFLICT = 46
    SWAPPING_CONFLICT = 47
    NO_BRIDGE = 48
    GOAL_BLOCKED = 49
    TRACE_NOT_JSON = 50
    TRACE_VERSION = 51
    TRACE_SHAPE = 52
    CHAPTER_ILLEGAL = 53
    LAWS_DIFFER = 54
    LIMITS_DIFFER = 55
    CHAPTERS_SPENT = 56
    WAITED_TOO_LONG = 57
    BAD_CLEARANCE = 60
    BAD_WINDOW = 61
    NO_PLACEMENT = 62
    WINDOW_FULL = 63
    NO_STEP = 64
    NO_MOVE = 65
    NOT_UNDER_WAY = 66
    SHIELD_MAP = 70
    SHIELD_LENGTH = 71
    SHIELD_OUTSIDE = 72
    SHIELD_WALL = 73
    SHIELD_SHARED = 74
    SHIELD_UNKNOWN = 75
    SHIELD_TWICE = 76
    SHIELD_FAR = 77

    @property
    def word(self) -> str:
        return _word_of(self.name)


class Verdict(enum.IntEnum):
    """What an order is answered, by its number in nashirudder.h. `word` is its word, such as "too-late"."""

    ACCEPTED = 101
    CLOSED = 102
    WITHDRAWN = 103
    CLIENT_CLOSED = 104
    NO_ROBOT = 105
    ROBOT_SHUT = 106
    NO_CELL = 107
    BLOCKED = 108
    UNREACHABLE = 109
    QUEUE_FULL = 110
    LIFE_SPENT = 111
    NO_ERRAND = 112
    TOO_LATE = 113

    @property
    def word(self) -> str:
        return _word_of(self.name)


CODE_OF: Dict[str, Code] = {code.word: code for code in Code}
STATES = ("", "free", "busy", "shut")
"""The words for the states of robots, by their numbers in nashirudder.h."""

VERDICT_OF: Dict[str, Verdict] = {verdict.word: verdict for verdict in Verdict}

# Words of the lines that the program writes (docs/PROTOCOL.md), where they are other ones
OF_PROTOCOL = {
    "limits": "bad-setup", "no-robots": "robot-count", "start": "start-blocked", "shared": "start-shared",
    "already": "already-shut", "closed": "client-closed",
}

# What each word of a refusal means. Those of codes are what nashirudder_message says, `#` and `%` are its two numbers.
SENTENCES = {
    "not-open": "the handle is closed",
    "no-client": "there is no client of this number",
    "no-robot": "there is no robot of this number",
    "mailbox-full": "the client's notices and unfinished errands leave no room for two more",
    "chapter-full": "the chapter has all the entries that it may have",
    "clock-spent": "all the ticks were made that may be made",
    "already-shut": "the robot is shut already",
    "book-spent": "this is the last chapter that there may be",
    "too-wide": "the mailbox cannot be made that large",
    "wrong-length": "a list has not the length that the call asks for",
    "null-pointer": "a pointer is null",
    "bad-order": "there is no kind of orders of this number",
    "chapter-begun": "the chapter has an entry: robots take turns from the beginning of a chapter on",
    "map-header": "the map: line # is missing or not in its form: the head is `type WORD`, `height N` and "
        "`width N`, and `map`",
    "map-size": "the map: the height or the width is not from 1 to 1,024",
    "map-row": "the map: row # is missing or not as long as the width",
    "map-cell": "the map: row #, column % has a byte that is no letter of a map",
    "map-trailing": "the map: line # comes after the last row and is not blank",
    "bad-setup": "a limit or the number of clients is out of its range",
    "robot-count": "there are not 1 to 512 robots",
    "start-blocked": "robot # starts on a cell that is no floor",
    "start-shared": "robots # and % both start on one cell",
    "wrong-size": "the setup has not the size that this library reads: it was made with another header",
    "no-turns": "the rooms that were found on the map do not pass their checks: robots take no turns",
    "too-many": "more robots are named than the map has cells",
    "from-blocked": "before the step robot # is on no floor",
    "from-shared": "before the step robots # and % are on one cell",
    "to-length": "the step has not a cell for each robot",
    "off-floor": "robot # comes to no floor",
    "not-adjacent": "robot # comes to a cell that is not next to its own",
    "vertex-conflict": "robots # and % come to one cell",
    "swapping-conflict": "robots # and % exchange their cells",
    "goal-blocked": "the goal is no floor",
    "trace-not-json": "the trace: it is not UTF-8, or not JSON, or nested deeper than 127",
    "trace-version": "the trace: the number under `version` is not 1 or 2",
    "trace-shape": "the trace: it is JSON, but not in the form of a trace",
    "chapter-illegal": "the trace: entry # breaks rule %",
    "laws-differ": "the robots are not as many as the chapter's, or have other laws",
    "limits-differ": "the limits `queue` and `life` are not those of the chapter",
    "chapters-spent": "within the limits no chapter follows",
    "waited-too-long": "a robot has waited longer than it may",
    "bad-clearance": "there is no clearance of this number",
    "bad-window": "the window of the execution has no step",
    "no-placement": "two robots stand on one cell, or one stands on no cell of the map",
    "window-full": "a move is not reached that lies as many steps before the next one as the window has",
    "no-step": "the cells are no step, free of conflicts, from the placement that was planned last",
    "no-move": "no move may begin",
    "not-under-way": "the robot is not under way",
    "shield-map": "the map has another number of cells than the shield was made for",
    "shield-length": "a list is not as long as the shield's number of robots asks",
    "shield-outside": "robot # stands beyond the map",
    "shield-wall": "robot # stands on a wall",
    "shield-shared": "robots # and % stand on one cell",
    "shield-unknown": "place # of the order names no robot",
    "shield-twice": "place # of the order names a robot again",
    "shield-far": "preference % of robot # is neither its cell nor next to it",
    "client-closed": "the client is closed",
    "robot-shut": "the robot takes no further errands",
    "no-cell": "the map has no cell of this number",
    "blocked": "the cell is not floor",
    "unreachable": "the cell is in another part of the floor than the robot",
    "queue-full": "the robot's queue is full",
    "life-spent": "the client has had all the errands accepted that it may have",
    "no-errand": "no unfinished errand of the client has this number",
    "too-late": "the robot is heading for the errand's cell already",
    "withdrawn": "the errand was withdrawn",
    "lane-full": "the client's lane has all the orders that may wait in it",
    "numbers-spent": "the client has sent all the orders that it may send",
    "no-room": "the cell is not roomy for the fleet's robots",
}


def sentence_of(word: str, numbers: Tuple[int, ...] = ()) -> str:
    """The sentence for a word, with the numbers that it names, or "" for one that has none."""
    first, second = (*map(str, numbers), "?", "?")[:2]
    return SENTENCES.get(word, "").replace("#", first).replace("%", second)


def verdict_in(words: List[str]) -> Tuple[Verdict, Optional[int]]:
    """The verdict that words of a line say, and the errand's number if it was accepted."""
    if words[0] == "refused":
        return VERDICT_OF[words[2]], None
    return VERDICT_OF[words[0]], int(words[1]) if len(words) > 1 else None

"""The functions and structs of nashirudder.h, for ctypes."""

import ctypes
import functools
from ctypes import POINTER, byref, c_bool, c_char, c_char_p, c_size_t, c_uint8, c_uint16, c_uint32, c_uint64, c_void_p
from typing import Any, List, Optional, Tuple

from . import finding
from .errors import NoMemory, refusal
from .finding import Place
from .names import Code

FAR = 2**32 - 1
"""What stands for a cell from which no walk leads to the goal: greater than every distance."""

# The goal of a robot that has no errand
NOWHERE = 2**32 - 1


class CFleet(ctypes.Structure):
    _fields_ = [("at", c_void_p), ("is_open", c_bool)]


class CSetup(ctypes.Structure):
    _fields_ = [
        ("size", c_uint32), ("clients", c_uint32), ("life", c_uint64), ("orders", c_uint64), ("clock", c_uint64),
        ("lane", c_uint32), ("outlet", c_uint32), ("queue", c_uint32), ("mailbox", c_uint32), ("chapter", c_uint32),
        ("chapters", c_uint32),
    ]


class CRobot(ctypes.Structure):
    _fields_ = [("cell", c_uint32), ("ranks", c_uint8 * 4)]


class CFault(ctypes.Structure):
    _fields_ = [("first", c_uint64), ("second", c_uint64), ("code", c_uint32)]


class CJudgement(ctypes.Structure):
    _fields_ = [("number", c_uint64), ("verdict", c_uint32)]


class CReport(ctypes.Structure):
    _fields_ = [("tick", c_uint64), ("arrived", c_uint32), ("farewells", c_uint32)]


class CNote(ctypes.Structure):
    _fields_ = [
        ("seq", c_uint64), ("order", c_uint64), ("number", c_uint64), ("tick", c_uint64), ("verdict", c_uint32),
        ("robot", c_uint32), ("cell", c_uint32), ("stamp", c_uint32),
    ]


class COrder(ctypes.Structure):
    _fields_ = [("number", c_uint64), ("kind", c_uint32), ("client", c_uint32), ("robot", c_uint32), ("cell", c_uint32)]


class CArrival(ctypes.Structure):
    _fields_ = [
        ("number", c_uint64), ("robot", c_uint32), ("client", c_uint32), ("cell", c_uint32), ("stamp", c_uint32),
    ]


class CErrand(ctypes.Structure):
    _fields_ = [
        ("number", c_uint64), ("place", c_uint64), ("client", c_uint32), ("robot", c_uint32), ("cell", c_uint32),
    ]


class CStanding(ctypes.Structure):
    _fields_ = [
        ("wait", c_uint64), ("errands", c_uint64), ("cell", c_uint32), ("goal", c_uint32), ("state", c_uint32),
    ]


class CEdge(ctypes.Structure):
    _fields_ = [("lower", c_uint32), ("upper", c_uint32)]


class CAccount(ctypes.Structure):
    _fields_ = [("taken", c_uint64), ("owed", c_uint64), ("pending", c_uint64), ("room", c_uint64)]


class CChapter(ctypes.Structure):
    _fields_ = [("at", c_void_p), ("is_open", c_bool)]


class CMap(ctypes.Structure):
    _fields_ = [("at", c_void_p), ("is_open", c_bool)]


class CShape(ctypes.Structure):
    _fields_ = [
        ("height", c_uint32), ("width", c_uint32), ("cells", c_uint32), ("floor", c_uint32), ("edges", c_uint32),
    ]


class CExecution(ctypes.Structure):
    _fields_ = [("at", c_void_p), ("is_open", c_bool)]


class CShield(ctypes.Structure):
    _fields_ = [("at", c_void_p), ("is_open", c_bool)]


class CMove(ctypes.Structure):
    _fields_ = [("tick", c_uint64), ("robot", c_uint32), ("from", c_uint32), ("to", c_uint32)]


class CWhereabouts(ctypes.Structure):
    _fields_ = [("cell", c_uint32), ("bound_for", c_uint32), ("left", c_uint32), ("is_under_way", c_bool)]


class CProgress(ctypes.Structure):
    _fields_ = [("steps", c_uint64), ("behind", c_uint32), ("has_room", c_bool)]


_FLEET, _TEXT = POINTER(CFleet), (c_char_p, c_size_t)

# Each function's parameters. All but those in RESULTS answer a code.
FUNCTIONS = {
    "version": (),
    "is_proved": (),
    "message": (POINTER(CFault), POINTER(c_char), c_size_t),
    "setup_default": (c_uint32, POINTER(CSetup)),
    "setup_endless": (c_uint32, POINTER(CSetup)),
    "open": (*_TEXT, POINTER(CRobot), c_size_t, POINTER(CSetup), _FLEET, POINTER(CFault)),
    "reopen": (*_TEXT, *_TEXT, POINTER(CRobot), c_size_t, POINTER(CSetup), _FLEET, POINTER(CFault)),
    "open_roomy": (*_TEXT, POINTER(CRobot), c_size_t, POINTER(CSetup), _FLEET, POINTER(CFault)),
    "reopen_roomy": (*_TEXT, *_TEXT, POINTER(CRobot), c_size_t, POINTER(CSetup), _FLEET, POINTER(CFault)),
    "close": (_FLEET,),
    "go": (_FLEET, c_uint32, c_uint32, c_uint32, POINTER(CJudgement)),
    "close_client": (_FLEET, c_uint32, POINTER(CJudgement)),
    "withdraw": (_FLEET, c_uint32, c_uint64, POINTER(CJudgement)),
    "take_many": (_FLEET, POINTER(COrder), c_size_t, POINTER(CJudgement), c_size_t, POINTER(c_size_t)),
    "tick": (_FLEET, POINTER(CReport)),
    "tick_into": (
        _FLEET, POINTER(CReport), POINTER(c_uint32), c_size_t, POINTER(CArrival), c_size_t, POINTER(c_uint32), c_size_t,
    ),
    "search_one": (_FLEET, POINTER(c_size_t)),
    "missing": (_FLEET, POINTER(c_size_t)),
    "shut": (_FLEET, c_uint32, POINTER(c_bool)),
    "give": (_FLEET, c_uint32, POINTER(CNote)),
    "give_many": (_FLEET, c_uint32, POINTER(CNote), c_size_t, POINTER(c_size_t)),
    "peek": (_FLEET, c_uint32, POINTER(CNote)),
    "pending_count": (_FLEET, c_uint32, POINTER(c_uint64)),
    "account_of": (_FLEET, c_uint32, POINTER(CAccount)),
    "take_turns": (_FLEET,),
    "widen": (_FLEET, c_uint32, c_uint64),
    "robots": (_FLEET, POINTER(c_size_t)),
    "clients": (_FLEET, POINTER(c_size_t)),
    "limits": (_FLEET, POINTER(CSetup)),
    "placement": (_FLEET, POINTER(c_uint32), c_size_t),
    "standings": (_FLEET, POINTER(CStanding), c_size_t),
    "queue": (_FLEET, c_uint32, POINTER(CErrand), c_size_t, POINTER(c_size_t)),
    "open_errands": (_FLEET, c_uint32, POINTER(CErrand), c_size_t, POINTER(c_size_t)),
    "clock": (_FLEET, POINTER(c_uint64)),
    "wait_of": (_FLEET, c_uint32, POINTER(c_uint64)),
    "eldest": (_FLEET, POINTER(c_uint32)),
    "longest_wait": (_FLEET, POINTER(c_uint64)),
    "wait_limit": (_FLEET, POINTER(c_uint64)),
    "is_idle": (_FLEET, POINTER(c_bool)),
    "idle_within": (_FLEET, POINTER(c_uint64)),
    "is_bridgeless": (_FLEET, POINTER(c_bool)),
    "trace": (_FLEET, POINTER(c_uint8), c_size_t, POINTER(c_size_t)),
    "next_chapter": (_FLEET,),
    "next_chapter_into": (_FLEET, POINTER(CChapter)),
    "chapter_trace": (POINTER(CChapter), POINTER(c_uint8), c_size_t, POINTER(c_size_t)),
    "chapter_close": (POINTER(CChapter),),
    "keep": (_FLEET, c_size_t),
    "judge": (*_TEXT, *_TEXT, POINTER(CFault)),
    "check_step": (*_TEXT, POINTER(c_uint32), c_size_t, POINTER(c_uint32), c_size_t, POINTER(CFault)),
    "first_bridge": (*_TEXT, POINTER(CEdge), POINTER(CFault)),
    "distances": (*_TEXT, c_uint32, POINTER(c_uint32), c_size_t, POINTER(CFault)),
    "map_open": (*_TEXT, POINTER(CMap), POINTER(CFault)),
    "map_close": (POINTER(CMap),),
    "map_shape": (POINTER(CMap), POINTER(CShape)),
    "map_joins": (POINTER(CMap), c_uint32, c_uint32, POINTER(c_bool)),
    "map_floor": (POINTER(CMap), POINTER(c_uint32), c_size_t, POINTER(c_size_t)),
    "map_check_step": (POINTER(CMap), POINTER(c_uint32), c_size_t, POINTER(c_uint32), c_size_t, POINTER(CFault)),
    "map_first_bridge": (POINTER(CMap), POINTER(CEdge)),
    "map_distances": (POINTER(CMap), c_uint32, POINTER(c_uint32), c_size_t),
    "map_unroomy": (POINTER(CMap), c_uint32, POINTER(c_uint32), c_size_t, POINTER(c_size_t)),
    "map_served_for": (POINTER(CMap), POINTER(c_uint32)),
    "execution_open": (c_uint32, POINTER(c_uint32), c_size_t, c_uint32, c_uint32, POINTER(CExecution)),
    "execution_close": (POINTER(CExecution),),
    "execution_plan": (POINTER(CExecution), POINTER(c_uint32), c_size_t),
    "execution_begin": (POINTER(CExecution), POINTER(CMove)),
    "execution_reached": (POINTER(CExecution), c_uint32, POINTER(CMove)),
    "execution_whereabouts": (POINTER(CExecution), c_uint32, POINTER(CWhereabouts)),
    "execution_progress": (POINTER(CExecution), POINTER(CProgress)),
    "shield_open": (POINTER(CMap), c_uint32, POINTER(CShield)),
    "shield_close": (POINTER(CShield),),
    "shield_step": (
        POINTER(CMap), POINTER(CShield), POINTER(c_uint32), c_size_t, POINTER(c_uint32), c_size_t, c_uint16, POINTER(c_uint32), c_size_t,
        POINTER(c_uint32), c_size_t, POINTER(CFault),
    ),
}
RESULTS = {
    "setup_default": None, "setup_endless": None, "close": None, "map_close": None, "chapter_close": None,
    "execution_close": None, "shield_close": None,
    "version": c_uint32, "is_proved": c_bool, "message": c_size_t,
}

# The version of nashirudder.h that these are of, as NASHIRUDDER_VERSION / 100: major and minor numbers
VERSION = 1


# The libraries that were loaded
_libraries: List[Any] = []


@functools.lru_cache(maxsize=None)
def _loaded(path: str) -> Any:
    try:
        library = ctypes.CDLL(path)
        for name, types in FUNCTIONS.items():
            call = getattr(library, "nashirudder_" + name)
            call.argtypes = types
            call.restype = RESULTS.get(name, c_uint32)
    except (OSError, AttributeError) as error:
        raise finding.no_library(path, error) from error
    if library.nashirudder_version() // 100 != VERSION:
        raise finding.no_library(path, f"its version is {library.nashirudder_version()}, and does not fit this package")
    _libraries.append(library)
    return library


def load(built: Optional[Place] = None) -> Any:
    """The library, with the types of its functions. Raises Missing if it is not found, or is another one."""
    return _loaded(finding.library(built))


def message_of(code: int, numbers: Tuple[int, ...]) -> str:
    """The library's sentence for a code, with the numbers that it names."""
    text = ctypes.create_string_buffer(256)
    first, second = (*numbers, 0, 0)[:2]
    _libraries[-1].nashirudder_message(byref(CFault(first, second, code)), text, len(text))
    return text.value.decode()


def check(code: int, fault: Optional[CFault] = None) -> None:
    """Raises what a call's code says, if that is not DONE: NoMemory, or Refused with the numbers that `fault` names and
    the library's sentence.
    """
    if code == Code.DONE:
        return
    if code == Code.NO_MEMORY:
        raise NoMemory("there is not enough memory; the fleet is as it was")
    numbers = (fault.first, fault.second) if fault is not None and fault.code == code else ()
    refused = refusal(next((known.word for known in Code if known == code), "unknown"), numbers)
    refused.sentence = message_of(code, numbers)
    raise refused


def is_proved(built: Optional[Place] = None) -> bool:
    """Whether each function of the library was proved before it was built. False of a library that
    `tools/build_c --quick` built, which has run-time checks in the place of proofs.

    Raises Missing if no library is found.
    """
    return bool(load(built).nashirudder_is_proved())

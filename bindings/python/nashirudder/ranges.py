"""Numbers that callers pass: none is cut to fit."""

import operator
from typing import Any, Dict

from .errors import OutOfRange

# The limits of a fleet, and the greatest number that there is room for
LIMITS = {
    "lane": 2**32 - 1, "outlet": 2**32 - 1, "queue": 2**32 - 1, "mailbox": 2**32 - 1, "life": 2**64 - 1,
    "orders": 2**64 - 1, "clock": 2**64 - 1, "chapter": 2**32 - 1, "chapters": 2**32 - 1,
}


def whole_number(what: str, value: Any, least: int = 0, most: int = 2**32 - 1) -> int:
    """The value as an int, if it is a whole number in this range. Raises OutOfRange otherwise."""
    try:
        number = operator.index(value)
    except TypeError:
        raise OutOfRange(f"{what} is no whole number: {value!r}") from None
    if not least <= number <= most:
        raise OutOfRange(f"{what} is {number}, which is not from {least} to {most}")
    return number


def long_number(what: str, value: Any) -> int:
    """The value as an int, if it is a whole number from 0 to 2^64 - 1. Raises OutOfRange otherwise."""
    return whole_number(what, value, most=2**64 - 1)


def limits_in(words: Dict[str, Any]) -> Dict[str, int]:
    """The limits among a function's arguments, without those that were not given."""
    return {name: words[name] for name in LIMITS if words[name] is not None}


def checked_limits(limits: Dict[str, int]) -> Dict[str, int]:
    """Limits by name. Raises TypeError where no limit has a name, and OutOfRange where there is no room for a number.
    """
    for name in limits:
        if name not in LIMITS:
            raise TypeError(f"no limit is named {name}: there are {', '.join(LIMITS)}")
    return {name: whole_number(name, number, most=LIMITS[name]) for name, number in limits.items()}

"""Texts that the library writes, by calls that say how long they are."""

import ctypes
from ctypes import byref
from typing import Any, Callable

from .calls import check
from .names import Code


def text_by(call: Callable[..., int]) -> str:
    """The text that a call writes; it is passed a list of bytes, how many these are, and where to tell the length."""
    length: Any = ctypes.c_size_t(1024)
    while True:
        text = (ctypes.c_uint8 * length.value)()
        code = call(text, len(text), byref(length))
        if code != Code.WRONG_LENGTH:
            check(code)
            return bytes(memoryview(text)[: length.value]).decode()

"""Lists of cells: NumPy arrays where NumPy is there, and lists where it is not."""

import ctypes
import functools
from array import array
from typing import TYPE_CHECKING, Any, Dict, List, Sequence, Tuple, Union

from .calls import CJudgement, COrder, CStanding
from .errors import OutOfRange
from .ranges import whole_number

if TYPE_CHECKING:
    import numpy
    from numpy.typing import NDArray

    Cells = Union[List[int], "NDArray[numpy.uint32]"]
    # Numbers of a caller: a list, or an array with one dimension
    Numbers = Union[Sequence[int], "NDArray[Any]", "array[int]"]
    # Rows of numbers: lists, or an array with two dimensions
    Rows = Union[Sequence[Sequence[int]], "NDArray[Any]"]
    # An array that can be written, of a caller
    Room = Any


@functools.lru_cache(maxsize=None)
def _numpy() -> Any:
    """NumPy, or None where it is not there. It is loaded where it is first needed: that takes a tenth of a second."""
    try:
        import numpy
    except ImportError:
        return None
    return numpy


def as_cells(items: Any) -> "Cells":
    """Numbers from 0 to 2^32 - 1 as an array of `numpy.uint32` with one dimension, or as a list. The items are copied.
    """
    numpy = _numpy()
    return list(items) if numpy is None else numpy.array(items, dtype=numpy.uint32)


def layout_of(struct: Any) -> Dict[str, Any]:
    """A struct of the library, as `numpy.dtype` takes it."""
    formats = {ctypes.c_uint32: "<u4", ctypes.c_uint64: "<u8"}
    names = [name for name, _ in struct._fields_]
    return {
        "names": names, "formats": [formats[kind] for _, kind in struct._fields_],
        "offsets": [getattr(struct, name).offset for name in names], "itemsize": ctypes.sizeof(struct),
    }


STANDING, ORDER, JUDGEMENT = layout_of(CStanding), layout_of(COrder), layout_of(CJudgement)


def room_in(out: Any, kind: Any, count: int) -> Any:
    """The memory of a caller's array, for the library to write `count` items of a kind. Raises OutOfRange if it is not
    of so many bytes, one after the other, or cannot be written.
    """
    try:
        view = memoryview(out)
        if view.readonly or not view.c_contiguous:
            raise OutOfRange("an array for the library to write can be written, and its items lie side by side")
        size = ctypes.sizeof(kind)
        whole = kind is not ctypes.c_uint32 or view.format in ("I", "L", "=I", "<I", "=L", "<L")
        if view.nbytes != count * size or view.itemsize != size and view.itemsize != 1 or not whole:
            raise OutOfRange(f"an array of {count} items of {size} bytes is needed, and not of {view.nbytes} bytes of format {view.format!r}")
        return (kind * count).from_buffer(view.cast("B") if count else bytearray(0))
    except TypeError as error:
        raise OutOfRange(f"this is no array that can be written: {error}") from error


def c_cells(what: str, items: "Numbers") -> Any:
    """Cells as an array for C, which is never empty. Anything that NumPy, `array` or a list holds will do, if it has
    one dimension.

    Raises OutOfRange where an item is no whole number from 0 to 2^32 - 1.
    """
    kind = ctypes.c_uint32 * max(1, len(items))
    try:
        view = memoryview(items)  # type: ignore[arg-type]
    except TypeError:
        try:
            # Some ten times as quick; what it refuses is named below.
            return kind.from_buffer(array("I", items)) if len(items) > 0 else kind()
        except (TypeError, ValueError, OverflowError):
            return kind(*(whole_number(what, item) for item in items))
    if view.ndim != 1:
        raise OutOfRange(f"{what}: the list has {view.ndim} dimensions, and not one")
    if view.format == "I" and view.itemsize == 4 and len(items) > 0:
        return kind.from_buffer_copy(view.tobytes())
    return kind(*(whole_number(what, item) for item in items))


def new_cells(count: int) -> Any:
    """A new array of numbers of 32 bits, for the library to write."""
    numpy = _numpy()
    return array("I", bytes(4 * count)) if numpy is None else numpy.empty(count, dtype=numpy.uint32)


def without_array(told: Any) -> "Cells":
    """What `new_cells` made, and a list if NumPy is not there."""
    cells: "Cells" = list(told) if _numpy() is None else told
    return cells


def is_over(one: Any, other: Any) -> bool:
    """Whether two arrays for C have memory in common."""
    starts = ctypes.addressof(one), ctypes.addressof(other)
    return starts[0] < starts[1] + ctypes.sizeof(other) and starts[1] < starts[0] + ctypes.sizeof(one)


def _lent(what: str, items: Any, dimensions: int) -> Any:
    """The memory of a caller's array, if that has numbers of 32 bits side by side and can be written; else a copy. The items
    are in the order of the rows.
    """
    view, numpy = memoryview(items), _numpy()
    if view.ndim != dimensions:
        raise OutOfRange(f"{what}: the array has {view.ndim} dimensions, and not {dimensions}")
    kind = ctypes.c_uint32 * (view.nbytes // max(1, view.itemsize))
    if view.nbytes == 0:
        return kind()
    if not (view.c_contiguous and view.itemsize == 4 and view.format in ("I", "L")):
        if numpy is None or numpy.asarray(items).dtype.kind not in "iu":
            told: Any = view.tolist()
            rows = told if dimensions == 2 else [told]
            return kind(*(whole_number(what, item) for row in rows for item in row))
        for most in (numpy.min(items), numpy.max(items)):
            whole_number(what, most)
        view = memoryview(numpy.ascontiguousarray(items, dtype=numpy.uint32))
    flat = view.cast("B")
    return kind.from_buffer_copy(flat) if view.readonly else kind.from_buffer(flat)


def lent_cells(what: str, items: "Numbers") -> Any:
    """Numbers as an array for C, as `c_cells` does it, but that a fitting array of the caller is not copied."""
    try:
        memoryview(items)  # type: ignore[arg-type]
    except TypeError:
        return c_cells(what, items)
    return _lent(what, items, 1)


def lent_rows(what: str, rows: "Rows", ends: "Numbers") -> Tuple[Any, int]:
    """Rows of numbers as one array for C, and how many each has. A row of a list that is shorter than others is filled up with
    the number of `ends`.
    """
    try:
        view = memoryview(rows)  # type: ignore[arg-type]
    except TypeError:
        width = max((len(row) for row in rows), default=0)
        whole_number("the length of a row", width, most=2**16 - 1)
        flat = [item for row, end in zip(rows, [*ends, *[0] * len(rows)]) for item in (*row, *[end] * (width - len(row)))]
        return c_cells(what, flat), width
    lent = _lent(what, rows, 2)
    return lent, whole_number("the length of a row", view.shape[1] if view.shape else 0, most=2**16 - 1)

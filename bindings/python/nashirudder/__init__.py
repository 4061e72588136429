"""Nashirudder: fleets of robots on a map, for Python 3.9 and later. The standard library is all that is needed.

    from nashirudder import Fleet

    with Fleet("site.map", robots=[0, 4, 24]) as fleet:
        errand = fleet.go(robot=1, cell=12)
        errand.accepted()                 # its number, or OrderRefused
        fleet.tick(fleet.look().within)   # as many ticks as are enough, on a map without bridges
        print(errand.arrived(), fleet.cells)

There are two classes of this name, and a program runs with either:

- `nashirudder.Fleet`: the program `fleet talk` keeps the fleet, and is spoken to over two pipes.
- `nashirudder.library.Fleet`: the fleet is in this process, in the shared library.

The fleet stands still until `tick` is called. One that moves by itself is a `LiveFleet`, which the program `fleet live`
keeps:

    with LiveFleet("site.map", robots=[0, 4, 24], period_ms=20, on_tick=draw) as fleet:
        errand = fleet.go(robot=1, cell=12)
        print(errand.accepted(timeout=1), errand.arrived(timeout=10))

On a map with a bridge `within` is None, and a loop that waits for an arrival may never end.
`bindings/python/controller.py` is a fleet that runs for months.

A fleet may be opened and closed by `async with` too, and `await errand` returns its arrival.

Cells count row by row from 0, robots and clients from 0, ticks and errands from 1. A wheel of `tools/wheel` holds the
program and the library; `nashirudder.finding` says where they are looked for otherwise. Every exception of the package is a
`FleetError`; `nashirudder.errors` has the tree. `placement` and `distances` return NumPy arrays where NumPy is there,
and lists where it is not; all other lists of cells are lists of int.
"""

from .errors import Ended, FileFailed, FleetError, Late, Missing, NoMemory, OrderRefused, OutOfRange, Refused, Waiting
from .fleet import AnyFleet
from .live import LiveFleet
from .live_errand import LiveErrand
from .orders import Errand
from .pipes import Fleet
from .records import Arrival, Chapter, Farewell, Hello, Look, OpenErrand, Session, Standing

__version__ = "0.1.0"

__all__ = [
    "AnyFleet", "Arrival", "Chapter", "Ended", "Errand", "Farewell", "FileFailed", "Fleet", "FleetError", "Hello", "Late",
    "LiveErrand", "LiveFleet", "Look", "Missing", "NoMemory", "OpenErrand", "OrderRefused", "OutOfRange", "Refused",
    "Session", "Standing", "Waiting",
]

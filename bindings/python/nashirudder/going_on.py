"""A fleet in this process that goes on from a chapter that was kept: the rules are those of `fleet talk --resume`
(docs/PROTOCOL.md, "Going on").
"""

from typing import Dict, NoReturn, Optional

from . import opening
from .errors import FileFailed, Refused
from .finding import Place
from .folder import KeptChapter
from .handle import Handle
from .map_handle import Map
from .state import told_by

# Why no fleet goes on from a chapter, in the words of nashirudder.h. The others are faults of the map and the limits.
_REASONS = {
    "trace-not-json", "trace-version", "trace-shape", "chapter-illegal", "laws-differ", "limits-differ",
    "chapters-spent", "waited-too-long", "no-room",
}


def _refuse(kept: KeptChapter, why: str, cause: Optional[Exception] = None) -> NoReturn:
    raise FileFailed(f"the fleet does not go on: {kept.name}: {why}") from cause


def _unroomy_errand(told: opening.Opening, kept: KeptChapter, built: Optional[Place], limits: Dict[str, int]) -> str:
    """Which unfinished errand of the chapter goes to a cell that is not roomy, as the program says it."""
    map = told.read_map()
    with Map(map, built=built) as of, Handle.reopen(map, kept.text, None, roomy=False, built=built, **limits) as fleet:
        unroomy = {int(cell) for cell in of.unroomy(fleet.robots())}
        errands = (errand for client in range(fleet.clients()) for errand in fleet.open_errands(client))
        first = next(errand for errand in errands if errand.cell in unroomy)
    return f"an errand of client {first.client} for robot {first.robot} goes to cell {first.cell}, which is not roomy"


def reopened(told: opening.Opening, kept: KeptChapter, built: Optional[Place], roomy: bool = False) -> Handle:
    """The fleet that goes on from the chapter of a file. `queue` and `life` are the chapter's where the caller does not
    say them. Raises FileFailed if no fleet goes on from it.
    """
    of_chapter = told_by(kept.text)
    number, own = of_chapter.get("chapter", kept.number), {name: of_chapter[name] for name in ("queue", "life") if of_chapter}
    limits = {**opening.ENDLESS, **own, **told.limits}
    try:
        handle = Handle.reopen(told.read_map(), kept.text, None, roomy=roomy, built=built, **limits)
    except Refused as refused:
        if refused.name not in _REASONS:
            raise
        if refused.name == "no-room":
            _refuse(kept, _unroomy_errand(told, kept, built, limits), refused)
        _refuse(kept, refused.sentence, refused)
    if number == kept.number and handle.robots() == len(told.robots) and handle.clients() == told.clients:
        return handle
    robots, clients = handle.robots(), handle.clients()
    handle.close()
    if number != kept.number:
        _refuse(kept, f"it is chapter {number}")
    if robots != len(told.robots):
        _refuse(kept, f"it has {robots} robots, and not {len(told.robots)}")
    _refuse(kept, f"it has {clients} clients, and not {told.clients}")

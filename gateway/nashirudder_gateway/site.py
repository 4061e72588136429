"""The site: its map, and how its fleet is started."""

import fcntl
import pathlib
from dataclasses import dataclass, field
from typing import IO, Dict, List, Optional

from nashirudder.opening import Planner
from nashirudder.stream import FleetStream

# What one client of the fleet may have: the gateway is that client, and limits its own clients below it
# Notices that are kept to be told again: more than open errands, and posts without a verdict, can have while the journal is not written
RECALL = 131_072
ROOM = {"lane": 65_536, "mailbox": 65_536, "outlet": 4_096, "queue": 1_024}
FLOOR = ".GS"


class BadSite(Exception):
    """The map or the robots' cells are not what a fleet can have."""


@dataclass
class Site:
    """`folder` has the fleet's chapters, the journal and the figures."""

    name: str
    map: pathlib.Path
    robots: List[int]
    folder: pathlib.Path
    period_ms: float = 100.0
    keep_every_ms: float = 60_000.0
    built: Optional[str] = None
    planner: Planner = "plain"
    # whether vehicles carry out the plan: then a turn is made where it is asked for
    has_vehicles: bool = False
    rows: List[str] = field(default_factory=list)
    limits: Dict[str, int] = field(default_factory=lambda: dict(ROOM))

    def __post_init__(self) -> None:
        self.rows = rows_of(self.map)
        self.chapters.mkdir(parents=True, exist_ok=True)

    @property
    def chapters(self) -> pathlib.Path:
        return self.folder / "chapters"

    @property
    def figures(self) -> pathlib.Path:
        return self.folder / "fleet.prom"

    def lock(self) -> IO[str]:
        """Holds the folder until what is returned is closed, or the process ends. Raises BadSite if another gateway has it."""
        held = open(self.folder / "gateway.lock", "w")
        try:
            fcntl.flock(held, fcntl.LOCK_EX | fcntl.LOCK_NB)
        except OSError as error:
            held.close()
            raise BadSite(f"the folder {self.folder} is in use by another gateway") from error
        return held

    async def start(self) -> FleetStream:
        """Starts the fleet, or lets it go on from what it told last."""
        return await FleetStream.open(
            self.map, self.robots, period_ms=None if self.has_vehicles else self.period_ms, watch=not self.has_vehicles,
            traces=self.chapters, resume=True, journal=True, recall=RECALL, keep_every_ms=self.keep_every_ms, metrics=self.figures, built=self.built,
            planner=self.planner, **self.limits)  # type: ignore[arg-type]

    def view(self) -> dict:
        return {"name": self.name, "width": len(self.rows[0]), "height": len(self.rows), "rows": self.rows,
                "robots": len(self.robots), "period_ms": self.period_ms, "planner": self.planner, "queue": self.limits["queue"]}


def rows_of(path: pathlib.Path) -> List[str]:
    """The rows of a map."""
    try:
        lines = path.read_text("ascii").splitlines()
        return [line for line in lines[lines.index("map") + 1:] if line]
    except (OSError, ValueError) as error:
        raise BadSite(f"the map {path} cannot be read: {error}") from error


def spread(path: pathlib.Path, count: int) -> List[int]:
    """So many floor cells, at equal steps over the largest part of the floor."""
    rows = rows_of(path)
    width, left = len(rows[0]), {y * len(rows[0]) + x for y, row in enumerate(rows) for x, it in enumerate(row) if it in FLOOR}
    largest: List[int] = []
    while left:
        part, edge = [], [left.pop()]
        while edge:
            cell = edge.pop()
            part.append(cell)
            near = {cell - width, cell + width} | ({cell - 1} if cell % width else set()) | (
                {cell + 1} if (cell + 1) % width else set())
            edge += near & left
            left -= near
        largest = max(largest, part, key=len)
    if not 1 <= count <= len(largest):
        raise BadSite(f"{path} has floor for 1 to {len(largest)} robots")
    largest.sort()
    return [largest[i * len(largest) // count] for i in range(count)]

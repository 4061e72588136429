"""The robots as the gateway knows them: cells, errands and waits."""

import collections
from typing import Dict, List, Optional, Set

from .errand import Errand


class Robots:
    """`cells` are the robots' cells after the last turn. A wait counts from the robot's last arrival, or from its first
    errand after that; after a restart from there, since today's protocol does not tell it."""

    def __init__(self, count: int) -> None:
        self.cells: List[int] = [0] * count
        self.shut: Set[int] = set()
        self.eldest: Optional[int] = None
        self._queues: Dict[int, Dict[int, Errand]] = collections.defaultdict(dict)
        self._since: Dict[int, int] = {}

    def clear(self) -> None:
        self._queues.clear()
        self._since.clear()

    def add(self, errand: Errand, tick: int) -> None:
        """The errand is the last one of its robot's queue."""
        queue = self._queues[errand.robot]
        if not queue:
            self._since[errand.robot] = tick
        queue[errand.id] = errand

    def remove(self, errand: Errand, tick: int) -> None:
        if self._queues[errand.robot].pop(errand.id, None) is not None:
            self._since[errand.robot] = tick

    def view(self, robot: int, tick: int) -> dict:
        queue = self._queues[robot]
        state = "shut" if robot in self.shut else "busy" if queue else "free"
        return {"robot": robot, "cell": self.cells[robot], "state": state, "errands": len(queue),
                "goal": next(iter(queue.values())).cell if queue else None,
                "wait": tick - self._since[robot] if queue else None, "eldest": bool(queue) and robot == self.eldest}

    def views(self, tick: int) -> List[dict]:
        return [self.view(robot, tick) for robot in range(len(self.cells))]

"""The vehicles of a site: the fleet's plan is carried out by them, each in its own time, by orders of VDA 5050."""

import asyncio
import logging
import time
from collections import deque
from typing import Any, Callable, Deque, Dict, List, Optional, Tuple, Type

from nashirudder.errors import Refused
from nashirudder.execution import Execution, Move

from . import vda5050
from .plan_log import Placement, PlanLog
from .vda5050 import ONLINE, Connection, Factsheet, Header, Message, Name, State, Stop
from .vehicle import Vehicle

log = logging.getLogger("nashirudder_gateway")

# Seconds after which an order that was not taken is sent again
AGAIN = 2.0
KINDS: Dict[str, Type[Header]] = {"state": State, "connection": Connection, "factsheet": Factsheet}


class Vehicles:
    """`send(topic, message)` hands a message to the broker. A vehicle is released to the next node of its way when its move may begin, as the
    proved `Execution` says it, and to none beyond.

    First each vehicle says where it stands (`is_set` is false until all have). If the fleet goes on, they are on their ways to where the plan has them, and
    do what is missing. Then `carry_out` takes a placement after the other, while `has_room`."""

    def __init__(self, site: str, shape: Tuple[int, int], names: List[Name], plan: PlanLog, clearance: str = "arrived",
                 ahead: int = 10) -> None:
        self.site, self.width, self.cells_in_map = site, shape[0], shape[0] * shape[1]
        self.log = plan
        self.send: Callable[[str, Message], None]
        self._words: Tuple[Any, int] = (clearance, ahead)
        self.order_id = ""
        self.all = [Vehicle(name, robot) for robot, name in enumerate(names)]
        self.by_name: Dict[Name, Vehicle] = {it.name: it for it in self.all}
        self.execution: Optional[Execution] = None
        # where they are to be brought first; None until the fleet has started
        self._target: Optional[Placement] = None
        self._steps: Deque[List[int]] = deque()
        # what is told once a vehicle has reached a node: (its number, what to tell)
        self._awaited: List[Deque[Tuple[int, Callable[[], None]]]] = [deque() for _ in names]
        # `is_planning`: a turn is being made, of which they will hear
        self.moves, self.bad_messages, self.is_planning = 0, 0, False
        self.on_begin: Callable[[], None] = lambda: None
        self.on_move: Callable[[], None] = lambda: None
        self._news = asyncio.Event()

    # ---- where they stand

    @property
    def is_set(self) -> bool:
        """Whether the plan is carried out: each vehicle has said where it stands."""
        return self.execution is not None

    def begin(self, tick: int, cells: List[int]) -> None:
        """The fleet starts, or goes on, at this tick with its robots on these cells."""
        self.stop()
        self._target = self.log.begin(tick, cells)
        self.order_id = self.log.order_id
        self.on_begin()
        self._set()

    def stop(self) -> None:
        """Nothing is released any more, until `begin`."""
        self._target = None
        if self.execution is not None:
            self.execution.close()
        self.execution = None
        self._steps.clear()
        for queue in self._awaited:
            queue.clear()

    def _where(self, vehicle: Vehicle, target: Placement) -> Optional[int]:
        """The number of the node at which it stands, as the log counts them; None if it does not stand on its way."""
        state, robot = vehicle.state, vehicle.robot
        assert state is not None
        if state.orderId == self.order_id:
            return state.lastNodeSequenceId
        # it knows nothing of us: then it has to stand where its robot is
        cell = vehicle.cell if state.agvPosition is None else self._cell_under(state.agvPosition)
        return target.sequences[robot] if cell == target.cells[robot] else None

    def _cell_under(self, position: vda5050.Position) -> Optional[int]:
        x, y = round(position.x), round(position.y)
        near = abs(position.x - x) <= 0.25 and abs(position.y - y) <= 0.25 and position.positionInitialized
        return y * self.width + x if near and 0 <= x < self.width and 0 <= y < self.cells_in_map // self.width else None

    def _set(self) -> None:
        """Begins to carry out the plan, once all vehicles are at rest on their ways."""
        target = self._target
        if target is None or any(it.trouble not in (None, "elsewhere") or not it.is_at_rest for it in self.all):
            return
        reached = []
        for vehicle in self.all:
            found = self._where(vehicle, target)
            vehicle.is_elsewhere = found is None
            reached.append(found if found is not None else -1)
        way = None if -1 in reached else self.log.way_from(reached)
        if way is not None:
            self._open(target.tick, way, reached)

    def _open(self, tick: int, way: List[List[int]], reached: List[int]) -> None:
        stands = [it.cell for it in self.all]
        for vehicle, cell, sequence in zip(self.all, way[0], reached):
            vehicle.is_elsewhere = vehicle.has_order(self.order_id) and stands[vehicle.robot] != cell
            vehicle.reached = vehicle.released = Stop(cell, sequence)
            vehicle.ahead.clear()
        if any(it.is_elsewhere for it in self.all):
            return
        clearance, ahead = self._words
        try:
            self.execution = Execution(self.cells_in_map, way[0], clearance, ahead)
        except Refused as error:
            log.error("the vehicles do not stand apart: %s", error)
            return
        placements = [Placement(tick, way[0], reached)]
        for cells in way[1:]:
            placements.append(placements[-1].then(tick, cells))
        self.log.replace(placements)
        for vehicle in self.all:
            self._order(vehicle)
        for before, after in zip(placements, placements[1:]):
            self._take(before, after)
        self._go_on()

    # ---- the plan

    @property
    def has_room(self) -> bool:
        """Whether a further placement may be planned."""
        return self.execution is not None and not self._steps and self.execution.has_room

    def planned(self, tick: int, cells: List[int]) -> Placement:
        """The placement after a further step, to be written down (`PlanLog.add`) before `carry_out`."""
        return self.log.placements[-1].then(tick, cells)

    def carry_out(self, before: Placement, after: Placement) -> None:
        """Lets the vehicles do a step that was written down."""
        self._take(before, after)
        self._go_on()

    def _take(self, before: Placement, after: Placement) -> None:
        for vehicle, cell, sequence, earlier in zip(self.all, after.cells, after.sequences, before.sequences):
            if sequence > earlier:
                vehicle.ahead.append(Stop(cell, sequence))
        self._steps.append(after.cells)

    def await_stop(self, robot: int, sequence: int, tell: Callable[[], None]) -> None:
        """Calls `tell` once the robot's vehicle has reached the node of this number."""
        self._awaited[robot].append((sequence, tell))
        self._tell(self.all[robot])

    def _tell(self, vehicle: Vehicle) -> None:
        queue = self._awaited[vehicle.robot]
        while queue and queue[0][0] <= vehicle.reached.sequence:
            queue.popleft()[1]()

    def _go_on(self) -> None:
        """Plans what there is room for, and begins each move that may begin."""
        execution = self.execution
        if execution is None:
            return
        while self._steps and execution.has_room:
            execution.plan(self._steps.popleft())
        move: Optional[Move]
        for move in iter(execution.begin, None):
            vehicle = self.all[move.robot]
            vehicle.released = vehicle.ahead.popleft()
            assert vehicle.released.cell == move.to
            self.moves += 1
            self._release(vehicle)

    def _release(self, vehicle: Vehicle) -> None:
        vehicle.is_held = vehicle.trouble is not None
        if not vehicle.is_held:
            self._order(vehicle)

    def _header(self, vehicle: Vehicle) -> Message:
        vehicle.header_id += 1
        return vda5050.header(vehicle.header_id, vehicle.name)

    def _order(self, vehicle: Vehicle) -> None:
        """Sends the order: the node where it is, the one to which it may go, and those that are planned after it."""
        vehicle.sent_at = time.monotonic()
        stops = [vehicle.reached, *[vehicle.released] * vehicle.is_under_way, *vehicle.ahead]
        message = vda5050.order(self._header(vehicle), self.order_id, stops, vehicle.released.sequence, (self.width, self.site))
        self.send(vehicle.name.topic(self.site, "order"), message)

    def ask(self) -> None:
        """Asks each vehicle for its state and its factsheet: the broker has just been reached."""
        for vehicle in self.all:
            self._ask(vehicle)

    def _ask(self, vehicle: Vehicle) -> None:
        head = self._header(vehicle)
        actions = [vda5050.request(kind, f"{self.order_id}-{vehicle.header_id}") for kind in ("state", "factsheet")]
        self.send(vehicle.name.topic(self.site, "instantActions"), {**head, "actions": actions})

    # ---- what they say

    def heard(self, topic: str, text: bytes) -> None:
        """Takes a message of a vehicle; one that is none of ours, or is at fault, is counted and left."""
        words = topic.split("/")
        vehicle = self.by_name.get(Name(words[-3], words[-2])) if len(words) == 5 else None
        try:
            if vehicle is None or words[-1] not in KINDS:
                raise ValueError("no vehicle of ours has this topic")
            told = KINDS[words[-1]].parse_raw(text)
            if (told.manufacturer, told.serialNumber) != (vehicle.name.manufacturer, vehicle.name.serial):
                raise ValueError("its header names another vehicle")
        except (ValueError, RecursionError) as error:
            self.bad_messages += 1
            why = "; ".join(str(error).splitlines()[:3])
            if vehicle is not None and words[-1] == "factsheet":
                vehicle.factsheet_fault = why
            log.warning("a message at %r is left: %s", topic, why)
            return
        self._news.set()
        if isinstance(told, Factsheet):
            vehicle.body, vehicle.factsheet_fault = told.physicalParameters, None
        elif isinstance(told, Connection):
            if told.connectionState == ONLINE and vehicle.connection != ONLINE:
                self._ask(vehicle)
            vehicle.connection = told.connectionState
        elif isinstance(told, State):
            vehicle.state = told
            self._stands(vehicle, told)
        if not self.is_set:
            self._set()
        elif vehicle.is_held and vehicle.trouble is None:
            self._release(vehicle)

    def _stands(self, vehicle: Vehicle, state: State) -> None:
        """Compares where it says that it is with what was released to it."""
        if self.execution is None:
            return
        at = Stop(-1 if vehicle.cell is None else vehicle.cell, state.lastNodeSequenceId)
        if state.orderId != self.order_id:
            # it knows nothing of its order: it has to stand where it was, or where it was to go
            known = {it.cell: it for it in (vehicle.reached, vehicle.released)}
            at = known.get(at.cell, at._replace(sequence=vehicle.released.sequence + 2))
        if at not in (vehicle.reached, vehicle.released) and at.sequence >= vehicle.reached.sequence:
            if not vehicle.is_elsewhere:
                log.error("the vehicle of robot %d is at %r, number %d, and was released to the cell %d, number %d", vehicle.robot,
                          state.lastNodeId, state.lastNodeSequenceId, *vehicle.released)
            vehicle.is_elsewhere = True
            return
        if at.sequence < vehicle.reached.sequence:
            return                      # an old message
        vehicle.is_elsewhere = False
        if at == vehicle.released and vehicle.is_under_way:
            vehicle.reached = at
            self.execution.reached(vehicle.robot)
            self._tell(vehicle)
            self._go_on()
            self.on_move()

    async def news(self, seconds: float) -> None:
        """Waits until a vehicle has said something, at most so long."""
        try:
            await asyncio.wait_for(self._news.wait(), seconds)
        except asyncio.TimeoutError:
            pass
        self._news.clear()

    @property
    def is_done(self) -> bool:
        """Whether all that was planned is carried out."""
        return self.execution is not None and not self._steps and self.execution.progress().behind == 0

    def look(self, now: float) -> None:
        """Sends orders again that were not taken. To be called each second."""
        for vehicle in self.all:
            if self.is_set and not vehicle.has_order(self.order_id) and vehicle.trouble is None and now - vehicle.sent_at >= AGAIN:
                self._order(vehicle)

    @property
    def reached(self) -> List[int]:
        """By robot, the number of the node that its vehicle has reached."""
        return [it.reached.sequence for it in self.all]

    def cells(self) -> List[int]:
        """By robot, the cell that its vehicle has reached, or where its robot is until it is known; none before the fleet has started."""
        return [] if self._target is None else [it.cell if it.cell is not None else at for it, at in zip(self.all, self._target.cells)]

    @property
    def trouble(self) -> str:
        """What keeps the vehicles from going on, or an empty text."""
        troubles = [(it.robot, it.trouble) for it in self.all if it.trouble is not None]
        if troubles:
            return f"the vehicle of robot {troubles[0][0]} is not to be sent on: {troubles[0][1]}" + (
                f", and {len(troubles) - 1} more" if len(troubles) > 1 else "")
        return "" if self.is_set else "the vehicles are not at rest on their ways yet"

    def views(self) -> List[Message]:
        return [it.view(self.is_set) for it in self.all]

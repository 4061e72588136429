"""A fleet that the program `fleet talk` keeps, spoken to over two pipes."""

import os
from collections import deque
from typing import Deque, Dict, List, Optional, Sequence, Set

from . import finding, opening
from .errors import FleetError, Refused, refusal
from .finding import Place
from .fleet import TICKS_AT_ONCE, AnyFleet
from .names import Verdict, verdict_in
from .opening import Planner, Text, Ties
from .orders import Order
from .process import Asked, Program, chapter_in, errands_in, look_in, silently
from .records import Arrival, Chapter, Farewell, Look, OpenErrand, Standing
from .turns import Turns
from .waits import Waits


class Fleet(AnyFleet):
    """A fleet that the program `fleet talk` keeps, spoken to over two pipes. It has the names, arguments and exceptions
    of `library.Fleet`.

    `map` is the path of a .map file; or `text` is the text of one. `robots` are the start cells of robots 0, 1, ..: 1 to 512, cells counted row by
    row from 0. `clients` is 1 to 64. `ties` is "plain" or "south" (docs/SCRIPT.md); "south" is for this class alone.
    The limits are those of a script's head, by name: `queue` (16 errands of a robot), `mailbox` (notices and
    unfinished errands of a client) and `lane` (orders of a client that are not judged), each 64, or with more than 31
    robots 2 for each robot and 2 more, and `chapter` (65,536 entries);
    `life`, `orders`, `clock` and `chapters` are so great that no fleet meets them.

    With `traces` each chapter is written into that folder as chapter-N.json when it is handed out, and the last one
    when the fleet is closed; the folder has to be there, without chapters, and for this fleet alone. With `resume` the
    fleet goes on from the last chapter in it, if it has chapters (docs/PROTOCOL.md, "Going on"): the robots stand where
    they were left, with their queues, and numbers go on; `robots`, `clients`, `ties`, `queue` and `life` have to be as
    they were, but for the robots' cells. With `roll`, which is the default, a full chapter is followed by the next.
    With `roomy` an errand to a cell that is not roomy for the robots is refused, so that none blocks the fleet for ever
    (docs/GLOSSARY.md, "roomy"): `go` raises Refused with "no-room", and a fleet with such an errand does not go on.
    With the `planner` "turns" robots take turns in dead ends, so that errands there arrive (docs/PROTOCOL.md, "Turns");
    a fleet that goes on takes turns if this is said again. It is for this class alone.
    `built` is the program, or a folder that has it (`nashirudder.finding` says where it is looked for without). No call
    waits longer than `timeout` seconds for the program; without it, as long as it takes.

    Raises Refused with the name of what is wrong: "robot-count", a fault of the map ("map-header", "map-size",
    "map-row", "map-cell", "map-trailing"), "bad-setup", "start-blocked" or "start-shared". Raises OutOfRange,
    FileFailed if the map cannot be read, the folder does not take the chapters or the fleet does not go on from the last
    one, Missing if the program is not found, and NoMemory.
    """

    def __init__(
        self,
        map: Optional[Place] = None,
        robots: Sequence[int] = (),
        clients: int = 1,
        *,
        text: Optional[Text] = None,
        ties: Ties = "plain",
        traces: Optional[Place] = None,
        resume: bool = False,
        roll: bool = True,
        roomy: bool = False,
        planner: Planner = "plain",
        built: Optional[Place] = None,
        timeout: Optional[float] = None,
        life: Optional[int] = None, orders: Optional[int] = None, clock: Optional[int] = None, lane: Optional[int] = None,
        outlet: Optional[int] = None, queue: Optional[int] = None, mailbox: Optional[int] = None,
        chapter: Optional[int] = None, chapters: Optional[int] = None,
    ) -> None:
        limits = opening.limits_in(locals())
        told = opening.checked(map, robots, clients, ties, traces, limits, text)
        words = [finding.program(built), "talk", "--marks"]
        if roll:
            words.append("--roll")
        if roomy:
            words.append("--roomy")
        if opening.checked_planner(planner):
            words += ["--planner", planner]
        words += opening.trace_words(told, resume)
        super().__init__(timeout, Turns())
        self._pending: Deque[Asked] = deque()
        self._lanes: Dict[int, Deque[Order]] = {}
        self._now = 0
        self._clients = told.clients
        self._shut_robots: Set[int] = set()
        self._waits = Waits()
        # The header lines come from a file, since a fleet that goes on is open before the first line.
        with told.files() as files:
            self._program = Program(words + files, None, self._noted, self._hear_line, self._tell_awaited)
            try:
                look = self.look()
                self._cells, self._now = look.cells, look.tick
            except BaseException as error:
                silently(lambda: self._program.end(timeout))
                if isinstance(error, Refused):
                    raise told.named(error) from None
                raise

    # ---- lines

    def _noted(self, asked: Asked) -> str:
        self._pending.append(asked)
        return "".join(command + "\n" for command in asked.commands)

    def _hear_line(self, words: List[str]) -> None:
        asked = self._pending[0]
        if words[0] != ".":
            asked.answers[-1].append(words)
            self._hear(words, asked.order)
        elif len(asked.answers) < len(asked.commands):
            asked.answers.append([])
        else:
            asked.is_done = True
            self._pending.popleft()

    def _hear(self, words: List[str], order: Optional[Order]) -> None:
        """Takes in a line of an answer."""
        if words[0] == "posted" and order is not None:
            self._lanes.setdefault(order.client, deque()).append(order)
        elif words[0] == "took":
            order, (verdict, number) = self._lanes[int(words[1])].popleft(), verdict_in(words[3:])
            self._ledger.judged(order, verdict, number)
            if number is not None:
                self._waits.accepted(order.client, number, self._now)
            elif verdict is Verdict.WITHDRAWN:
                self._waits.withdrawn(order.client, order._numbers[0])
        elif words[0] == "tick":
            self._now = int(words[1][:-1])
            self._cells = [int(word) for word in words[2:]]
        elif words[0] == "arrived":
            robot, client, number, cell, stamp = (int(word) for word in words[2::2])
            arrival = Arrival(robot, client, number, cell, self._now, stamp)
            self._arrivals.append(arrival)
            self._ledger.arrived(arrival)
            self._waits.arrived(arrival)
        elif words[0] == "farewell":
            self._farewells.append(Farewell(int(words[2]), int(words[4])))

    # ---- what AnyFleet asks for

    def _post(self, order: Order) -> None:
        answer = self._program.ask(f"post {order.client} {order._line}", order=order)[0][-1]
        if answer[0] == "post-refused":
            raise refusal(answer[-1])
        if answer[0] != "posted":
            raise refusal(answer[0])

    def _take(self, client: int) -> None:
        while self._lanes.get(client):
            took, given, _ = self._program.ask(f"take {client}", f"give {client}", f"collect {client}")
            words = took[-1]
            if words[0] == "take-refused":
                if words[-1] != "mailbox-full":
                    raise refusal(words[-1])
                # There may be room once notices are collected that were not before.
                if not self._collect(client) and given[-1][0] != "gave":
                    return

    def _collect(self, client: int) -> bool:
        """Collects all notices of a client; whether there were some."""
        some = False
        while True:
            given, collected = self._program.ask(f"give {client}", f"collect {client}")
            if given[0][0] == "nothing" and collected[0][0] == "none":
                return some
            some = True

    def _waiting_clients(self) -> List[int]:
        return sorted(client for client, lane in list(self._lanes.items()) if lane)

    def _make_ticks(self, count: int) -> None:
        while count > 0 and not self._turns.stops():
            part = min(count, TICKS_AT_ONCE)
            answer = self._program.ask(f"tick {part}")[0]
            for client in sorted({arrival.client for arrival in self._arrivals}):
                self._collect(client)
            self._raise_refusal(answer, "tick-refused")
            count -= part

    def _make_shut(self, robot: int) -> None:
        self._raise_refusal(self._program.ask(f"shut {robot}")[0], "shut-refused")
        self._shut_robots.add(robot)

    def _look_now(self) -> Look:
        return self._program.reply("look", look_in)

    def _errands_now(self, client: int) -> List[OpenErrand]:
        return errands_in(self._program.ask(f"open {client}")[0])

    def _queues(self) -> List[List[OpenErrand]]:
        """The robots' errands, each list in the order of the robot's queue."""
        answers = self._program.ask(*(f"open {client}" for client in range(self._clients)))
        queues: List[List[OpenErrand]] = [[] for _ in self._cells]
        for answer in answers:
            for errand in errands_in(answer):
                queues[errand.robot].append(errand)
        for one in queues:
            one.sort(key=lambda errand: errand.place)
        return queues

    def _queue_now(self, robot: int) -> List[OpenErrand]:
        if robot >= len(self._cells):
            raise refusal("no-robot")
        return self._queues()[robot]

    def _standings_now(self) -> List[Standing]:
        return [self._standing(robot, errands) for robot, errands in enumerate(self._queues())]

    def _standing(self, robot: int, errands: List[OpenErrand]) -> Standing:
        """How a robot stands that has these errands."""
        state = "shut" if robot in self._shut_robots else "busy" if errands else "free"
        cell = self._cells[robot]
        if not errands:
            return Standing(state, cell, None, 0, None)
        return Standing(state, cell, errands[0].cell, len(errands), self._waits.wait_of(errands[0], self._now))

    def _turn_page(self) -> Chapter:
        return self._program.reply("chapter", chapter_in)

    def _why_over(self) -> Optional[FleetError]:
        return self._program.why_over()

    def _is_left_open(self) -> bool:
        program = getattr(self, "_program", None)
        return program is not None and not program.is_closed and program.opened_in == os.getpid()

    def _let_end(self) -> None:
        self._program.drop()

    def close(self, timeout: Optional[float] = None) -> None:
        self._program.close(self._timeout if timeout is None else timeout)

    @staticmethod
    def _raise_refusal(answer: List[List[str]], word: str) -> None:
        for words in answer:
            if words[0] == word:
                raise refusal(words[-1])

    @property
    def status(self) -> Optional[int]:
        return self._program.status

"""What a fleet in real time is asked and told, over all lives of its program."""

import threading
from typing import Callable, Dict, Iterable, List, Optional, Sequence

from .answers import Asked
from .caller import Caller
from .errors import FileFailed, FleetError, Late
from .names import verdict_in
from .orders import Ledger, Order
from .process import Program
from .records import Arrival
from .remembering import Memory
from .turns import need_own_process


class Conversation:
    """The lines of all clients with the program `fleet live`, and what the clients remember of them. Any thread may call
    any method.
    """

    def __init__(self, caller: Optional[Caller], is_on_demand: bool) -> None:
        """`caller` is told each tick; the arrivals of the last call of `tick` are kept if the fleet is on demand."""
        self.program: Program
        self.arrivals: List[Arrival] = []
        self._caller, self._is_on_demand = caller, is_on_demand
        self._marks = 0
        self._pending: Dict[int, Asked] = {}
        self._ledger = Ledger()
        self._memories: Dict[int, Memory] = {}
        # Held while what clients remember changes; the program's own lock is never waited for within it.
        self._lock = threading.RLock()

    def begin(self, words: Sequence[str], timeout: Optional[float], over: Callable[[], None], unknown: int = 0) -> None:
        """Starts the program, for the first time or once more. `over` is as for `Program`; of so many clients it is `unknown` what there was
        before, and `know` has to follow.
        """
        with self._lock:
            for client in range(unknown):
                self._memory(client)
            # Who asked the program before was told that it ended.
            self._pending = {}
            for memory in self._memories.values():
                memory.begin_anew()
            self.program = Program(words, timeout, self._noted, self._hear, over)

    # ---- sessions

    def know(self, clients: int) -> None:
        """Asks of a fleet that goes on, and of which nothing is remembered, how many orders and notices there were."""
        for client in range(clients):
            words = self.program.ask(f"session {client}")[0][0]
            with self._lock:
                memory = self._memory(client)
                self._take_in(memory, memory.begin(words))

    def catch_up(self) -> None:
        """Takes in what the clients were not told, and posts again what the fleet does not have. Raises FileFailed if the
        fleet is not the one that the clients know, and what the program ended with.
        """
        with self._lock:
            memories = list(self._memories.values())
        for memory in memories:
            words = self.program.ask(f"session {memory.client}")[0][0]
            # A client that there is not has orders that were not answered, and nothing else.
            told = memory.session(words) if words[0] == "session" else 0
            while memory.last < told:
                if self.program.ask(f"since {memory.client} {memory.last}")[0][-1][-1] == "0":
                    raise FileFailed(f"the fleet does not go on: client {memory.client} is not told again what came after notice {memory.last}")
            with self._lock:
                memory.is_up_to_date()
                self._send_next(memory)
        if not self.program.wait(lambda: all(memory.is_settled for memory in memories), self.program.timeout):
            raise Late(f"no answer in {self.program.timeout} seconds")
        # The verdicts of these orders stand before the next answer.
        self.program.ask("look")

    def _memory(self, client: int) -> Memory:
        return self._memories.setdefault(client, Memory(client))

    # ---- orders

    def post(self, order: Order, is_kept: bool) -> None:
        """Posts an order, and waits until it is posted. Raises Refused if it is not. If the program ends before it says
        so, the order waits to be posted again if it is to be kept, and what the program ended with is raised otherwise.
        """
        need_own_process(self.program.opened_in)
        with self._lock:
            program = self.program
            is_over = program.is_over
            if not is_over:
                memory = self._memory(order.client)
                memory.add(order)
                self._send_next(memory)
        why = program.why_over() if is_over else None
        if why is not None:
            raise why
        try:
            if not program.wait(lambda: order._is_posted or order._refusal is not None, program.timeout):
                raise Late(f"no answer in {program.timeout} seconds")
        except Late:
            raise
        except FleetError:
            if not is_kept:
                raise
        if order._refusal is not None:
            raise order._refusal

    def _send_next(self, memory: Memory) -> None:
        order = memory.next_order()
        if order is not None:
            self.program.put(Asked([f"post {order.client} {order._line}"], order))

    # ---- lines

    def _noted(self, asked: Asked) -> str:
        self._marks += 1
        self._pending[self._marks] = asked
        return f"@{self._marks} {asked.commands[0]}\n"

    def _hear(self, words: List[str]) -> None:
        if words[0] == "tick":
            if self._caller is not None:
                self._caller.tell(int(words[1][:-1]), [int(word) for word in words[2:]])
        elif words[0].startswith("@"):
            with self._lock:
                self._hear_answer(int(words[0][1:]), words[1:])
        elif words[0] == "collected":
            with self._lock:
                self._hear_notice(words)

    def _hear_answer(self, mark: int, words: List[str]) -> None:
        asked = self._pending[mark]
        asked.answers[0].append(words)
        if words[0] == "collected":
            self._hear_notice(words)
        if words[0] in ("open", "collected") and words[2] != "end" or words[0] == "robot":
            # Further lines of this answer follow.
            return
        del self._pending[mark]
        if asked.order is not None:
            memory = self._memory(asked.order.client)
            memory.answered(words)
            self._send_next(memory)
        asked.is_done = True

    def _hear_notice(self, words: List[str]) -> None:
        memory = self._memory(int(words[1]))
        self._take_in(memory, memory.due(words))

    def _take_in(self, memory: Memory, notices: Iterable[List[str]]) -> None:
        for _, _, _, kind, number, *said in notices:
            if kind == "verdict":
                self._ledger.judged(memory.judged(int(number)), *verdict_in(said))
                self._send_next(memory)
                continue
            robot, cell, tick, stamp = (int(word) for word in said[1::2])
            arrival = Arrival(robot, memory.client, int(number), cell, tick, stamp)
            self._ledger.arrived(arrival)
            if self._is_on_demand:
                self.arrivals.append(arrival)

"""What a client of a fleet in real time remembers, so that the fleet's program may be killed and started again: its
orders, and which notices it was told (docs/PROTOCOL.md, "What was told stands").
"""

from collections import deque
from typing import Deque, Dict, Iterator, List, Optional

from .errors import FileFailed, refusal
from .orders import Order


class Memory:
    """What one client remembers.

    Its orders have the numbers that the fleet gives them. One order is on its way at a time: so the number of orders that
    the fleet has says after a kill which ones these are.
    """

    def __init__(self, client: int) -> None:
        self.client = client
        # The orders without a verdict, by rising number; so many had one before the first of them
        self._orders: Deque[Order] = deque()
        self._judged = 0
        # So many of the orders are with the fleet, and so many were made before this life and are not with it yet.
        self._posted = self._left_over = 0
        # The number of the last notice, and of the last one of the lives before this; notices above the next one, as words,
        # until those before them are told again
        self.last = self._last_before = 0
        self._early: Dict[int, List[str]] = {}
        # Whether an order was written and not answered, the lane was full for one that has to be posted, and notices may
        # be missing
        self._is_asked = self._is_held_up = self._is_behind = False

    # ---- orders

    def add(self, order: Order) -> None:
        """An order is to be posted, after those that are here."""
        self._orders.append(order)

    def next_order(self) -> Optional[Order]:
        """The order that is to be written now, if there is one."""
        if self._is_asked or self._is_held_up or self._is_behind or self._posted == len(self._orders):
            return None
        self._is_asked = True
        return self._orders[self._posted]

    def answered(self, words: List[str]) -> None:
        """What the order that was written was answered."""
        order, self._is_asked = self._orders[self._posted], False
        if words[0] == "lane-full" and order._is_posted:
            self._is_held_up = True
            return
        self._left_over = max(0, self._left_over - 1)
        if words[0] == "posted":
            if int(words[2]) != self._judged + self._posted + 1:
                raise ValueError("an order has another number")
            order._is_posted = True
            self._posted += 1
        else:
            order._refusal = refusal(words[-1] if words[0] == "post-refused" else words[0])
            del self._orders[self._posted]
            order._tell()

    def judged(self, number: int) -> Order:
        """The order of this number has its verdict."""
        self._judged += 1
        self._posted -= 1
        if self._posted < 0 or number != self._judged:
            raise ValueError("an order has another number")
        self._is_held_up = False
        return self._orders.popleft()

    @property
    def is_settled(self) -> bool:
        """Whether each order that was made before this life is with the fleet, but for those that a full lane holds up."""
        return self._is_held_up or self._left_over == 0

    # ---- notices

    def due(self, words: List[str]) -> Iterator[List[str]]:
        """The notices that are to be taken in now that this one was told: each once, and in order."""
        seq = int(words[2])
        if seq <= self.last:
            return
        if seq > self.last + 1 and not self._is_behind:
            raise ValueError("a notice was lost")
        self._early[seq] = words
        yield from self._next_notices()

    def _next_notices(self) -> Iterator[List[str]]:
        while self.last + 1 in self._early:
            self.last += 1
            yield self._early.pop(self.last)

    # ---- another life of the program

    def begin_anew(self) -> None:
        """The program begins: what it has is not known yet."""
        self._early = {}
        self._is_asked = self._is_held_up = False
        self._is_behind = True
        self._last_before = self.last
        self._posted, self._left_over = 0, len(self._orders)
        for order in self._orders:
            order._is_posted = True

    def begin(self, words: List[str]) -> Iterator[List[str]]:
        """The program goes on from chapters whose orders and notices somebody else remembers, as it says of the session.
        Returns the notices that were told since.
        """
        self._judged, self.last = int(words[3]), int(words[5])
        self._is_behind = False
        self._early = {seq: notice for seq, notice in self._early.items() if seq > self.last}
        yield from self._next_notices()

    def session(self, words: List[str]) -> int:
        """How many notices the fleet has told, by what it says of the session; further ones may be told already. Raises
        FileFailed if that is not the fleet that this client knows.
        """
        taken, told, first = int(words[3]), int(words[5]), int(words[8])
        if not self._judged <= taken <= self._judged + len(self._orders) or told < self._last_before:
            known = f"the client knows {self._judged} verdicts and {self._last_before} notices"
            raise FileFailed(f"the fleet does not go on: {' '.join(words)}, and {known}")
        if first > self.last + 1 and told > self.last:
            raise FileFailed(f"the fleet does not go on: {' '.join(words)}, and the client was told {self.last} notices")
        self._posted = taken - self._judged
        self._left_over -= self._posted
        return told

    def is_up_to_date(self) -> None:
        """All was told again."""
        self._is_behind = False

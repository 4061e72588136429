"""A fleet in real time for asyncio: one stream of events, over the pipes of the program `fleet live`.

    async with await FleetStream.open("site.map", [0, 4, 24], period_ms=20) as fleet:
        fleet.go(robot=1, cell=12, note="mine")
        async for event in fleet:
            print(event)              # Posted, Judged and Arrived, each with the note "mine"
"""

import asyncio
import os
from typing import Any, List, Optional, Sequence, Union

from . import finding, opening
from .errors import Ended, FleetError, Missing, OutOfRange, Refused, refusal
from .events import Arrived, Event, Judged, Over, notice_in
from .finding import Place
from .opening import Planner, Text, Ties
from .answers import end_of, errands_in, hello_in, look_in, session_in, standings_in
from .ranges import long_number, whole_number
from .records import Hello, Look, OpenErrand, Session, Standing
from .stream_book import Asked, Lines, StreamBook
from .stream_pipes import StreamPipes, WholeLines

MOST_RECALL = 2**24
_MOST_COMPLAINT = 8192

class FleetStream:
    """The program `fleet live`, spoken to from one asyncio loop. `open` makes one. It is an asynchronous iterator over the
    events, in the order of the program's lines, for one reader. What is posted is written when the caller next awaits
    something. While 1,000 events wait to be read, ticks are left out, never another event."""

    def __init__(self) -> None:
        self._book = StreamBook()
        self._events = self._book.events
        self._out: List[str] = []
        self._rest = b""
        self._complaint = ""
        self._is_over = False
        self._loop = asyncio.get_running_loop()
        self._news: "Optional[asyncio.Future[None]]" = None
        self._gone = asyncio.Event()
        self.begun: Look

    @classmethod
    async def open(
        cls,
        map: Optional[Place] = None,
        robots: Sequence[int] = (),
        clients: int = 1,
        *,
        period_ms: Optional[float] = None,
        watch: bool = False,
        text: Optional[Text] = None,
        ties: Ties = "plain",
        traces: Optional[Place] = None,
        resume: bool = False,
        planner: Planner = "plain",
        keep_every_ms: Optional[float] = None,
        journal: bool = False,
        recall: Optional[int] = None,
        metrics: Optional[Place] = None,
        built: Optional[Place] = None,
        life: Optional[int] = None, orders: Optional[int] = None, clock: Optional[int] = None, lane: Optional[int] = None,
        outlet: Optional[int] = None, queue: Optional[int] = None, mailbox: Optional[int] = None,
        chapter: Optional[int] = None, chapters: Optional[int] = None,
    ) -> "FleetStream":
        """Starts the program. With `watch` each turn is an event Moved; with `journal` what an event or an answer tells is
        on the disk of `traces`, and stands after a kill; of each client's notices the last `recall` ones can be told again (`since`);
        `metrics` is the file of figures. The other words are those of `LiveFleet`. Raises what `LiveFleet` raises.

        `begun` of what is returned is how the fleet stood then.
        """
        limits = opening.limits_in(locals())
        told = opening.checked(map, robots, clients, ties, traces, limits, text)
        if (keep_every_ms is not None or journal) and told.traces is None:
            raise OutOfRange("a fleet that keeps a journal, or a chapter so often, has a folder for traces")
        words = [finding.program(built), "live", *opening.trace_words(told, resume), *["--watch"] * watch, *["--journal"] * journal]
        words += [] if recall is None else ["--recall", str(whole_number("recall", recall, 0, MOST_RECALL))]
        if opening.checked_planner(planner):
            words += ["--planner", planner]
        for word, time in (("--period", period_ms), ("--keep-every", keep_every_ms)):
            words += [] if time is None else [word, f"{round(time * 1000)}us"]
        words += [] if metrics is None else ["--metrics", str(metrics)]
        stream = cls()
        with told.files() as files:
            await stream._start([*words, *files], told)
        return stream

    async def _start(self, words: List[str], told: opening.Opening) -> None:
        pipes = StreamPipes(self._hear, self._complain, self._end)
        read_end, write_end = os.pipe()
        self._stdin = WholeLines(write_end)
        try:
            # a session of its own: Ctrl-C in a terminal is for this process, which then ends the program
            self._transport, _ = await self._loop.subprocess_exec(lambda: pipes, *words, stdin=read_end, start_new_session=True)
        except BaseException as error:
            self._stdin.close()
            if isinstance(error, OSError):
                raise Missing(f"{words[0]} cannot be started: {error}") from error
            raise
        finally:
            os.close(read_end)
        try:
            self.begun = await self.look()
        except BaseException as error:
            self._transport.close()
            self._stdin.close()
            if isinstance(error, Refused):
                raise told.named(error) from None
            raise

    @property
    def pid(self) -> int:
        """The program's process."""
        return self._transport.get_pid()

    # ---- what is asked

    def _send(self, line: str, asked: Asked) -> None:
        if self._is_over:
            raise self._ended()
        if not self._out:
            self._loop.call_soon(self._flush)
        self._out.append(self._book.note(line, asked))

    def _flush(self) -> None:
        lines, self._out = self._out, []
        if not self._is_over:
            self._stdin.write(lines)

    def _post(self, order: str, number: Optional[int], asked: Asked) -> None:
        only = "" if number is None else f"as {long_number('number', number)} "
        self._send(f"{only}post {asked.client} {order}", asked)

    def go(self, robot: int, cell: int, client: int = 0, note: Any = None, number: Optional[int] = None) -> None:
        """Posts an errand. Its events have `note`: Posted or NotPosted, then Judged, then Arrived. With `number` it is posted
        only if it is the client's order of this number, so what may have been heard can be posted again. Raises
        OutOfRange, and Ended once the program has ended."""
        robot, cell, client = whole_number("robot", robot), whole_number("cell", cell), whole_number("client", client)
        self._post(f"go {robot} {cell}", number, Asked(None, client, note, []))

    def withdraw(self, errand: int, client: int = 0, note: Any = None, number: Optional[int] = None) -> None:
        """Posts the withdrawal of the client's errand of this number. `number` is as in `go`, and it raises as that does."""
        errand, client = whole_number("errand", errand), whole_number("client", client)
        self._post(f"withdraw {errand}", number, Asked(None, client, note, [], errand))

    def ask(self, line: str) -> "asyncio.Future[Lines]":
        """A future of a line's answer: its lines, as words. It fails with Ended if the program ends before. The line
        has to be one of docs/PROTOCOL.md, not `quit`, and without a mark."""
        answer: "asyncio.Future[Lines]" = self._loop.create_future()
        self._send(line, Asked(answer, 0, None, []))
        return answer

    async def look(self) -> Look:
        """How the fleet stands."""
        return look_in((await self.ask("look"))[0])

    async def hello(self) -> Hello:
        """What the fleet is."""
        return hello_in((await self.ask("hello"))[0])

    async def standings(self) -> List[Standing]:
        """How each robot stands, by the robot's number."""
        return standings_in(await self.ask("robots"))

    async def open_errands(self, client: int = 0) -> List[OpenErrand]:
        """The client's errands that are accepted, and neither done nor withdrawn. Raises Refused with "no-client"."""
        return errands_in(await self.ask(f"open {whole_number('client', client)}"))

    async def session(self, client: int = 0) -> Session:
        """How far the client's orders and notices have come. Raises Refused with "no-client"."""
        return session_in((await self.ask(f"session {whole_number('client', client)}"))[0])

    async def since(self, seq: int, client: int = 0) -> List[Union[Judged, Arrived]]:
        """The client's notices above this number that can be told again, in their order and without notes: all that were told before
        the last line of the answer. Those that are told meanwhile are events too. Raises Refused with "no-client"."""
        seq, client = long_number("seq", seq), whole_number("client", client)
        told: List[Union[Judged, Arrived]] = []
        while True:
            *lines, end = await self.ask(f"since {client} {seq}")
            if end[0] == "no-client":
                raise refusal("no-client")
            if not lines:
                return told
            told += [notice_in([word.encode() for word in words]) for words in lines]
            seq = told[-1].seq

    @property
    def unanswered(self) -> int:
        """How many lines have no answer yet."""
        return len(self._book.asked)

    async def drain(self) -> None:
        """Waits until the program's pipe has room."""
        await self._stdin.has_room.wait()

    # ---- what is heard

    def _hear(self, data: bytes) -> None:
        lines = (self._rest + data).split(b"\n")
        self._rest = lines.pop()
        try:
            for line in lines:
                self._book.take(line)
        except (ValueError, LookupError):
            self._complaint = f"it said what is no line of the protocol: {line[:200]!r}"
            self._transport.kill()
        self._wake()

    def _complain(self, data: bytes) -> None:
        said = (self._complaint + data.decode(errors="replace")).splitlines(True)
        # how a fleet starts, and the line of each minute, are no complaints
        quiet = ("fleet: begins anew", "fleet: goes on from ", "seconds ")
        self._complaint = "".join(line for line in said if not line.startswith(quiet))[-_MOST_COMPLAINT:]

    # ---- the end

    def _ended(self) -> FleetError:
        status = self._transport.get_returncode()
        return Ended(status, "the fleet is closed") if status in (0, 8) else end_of(status, self._complaint.strip())

    def _end(self) -> None:
        self._is_over = True
        self._events.append(Over(self._transport.get_returncode(), self._book.ticks, self._complaint.strip()))
        self._book.end(self._ended())
        self._stdin.close()
        self._gone.set()
        self._wake()

    async def close(self, timeout: Optional[float] = None) -> Optional[int]:
        """Ends the program: what was posted is judged, and the last chapter is written. Returns its status; it is
        killed if it has not ended within `timeout` seconds. The events up to Over can be read after."""
        if not self._is_over:
            self._flush()
            self._stdin.write(["quit\n"])
            if not (await asyncio.wait((asyncio.ensure_future(self._gone.wait()),), timeout=timeout))[0]:
                self._transport.kill()
                await self._gone.wait()
        self._transport.close()
        return self._transport.get_returncode()

    async def __aenter__(self) -> "FleetStream":
        return self

    async def __aexit__(self, *_: object) -> None:
        await self.close()

    # ---- events

    def _wake(self) -> None:
        if self._news is not None and not self._news.done():
            self._news.set_result(None)

    def __aiter__(self) -> "FleetStream":
        return self

    async def __anext__(self) -> Event:
        while not self._events:
            if self._is_over:
                raise StopAsyncIteration
            self._news = self._loop.create_future()
            await self._news
        return self._events.popleft()

    def at_hand(self) -> List[Event]:
        """The events that were heard and not read yet, without waiting."""
        events = list(self._events)
        self._events.clear()
        return events

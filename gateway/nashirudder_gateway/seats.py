"""The WebSockets: each is a seat of its client."""

import asyncio
import collections
import json
import time
from typing import Any, Callable, Deque, List, Optional, Tuple

from aiohttp import WSMsgType, web

from . import refusal
from .clients import Client
from .errand import POSTED, REFUSED, Errand
from .guard import MOST_BYTES, Guard, bearer, checked, number_in
from .models import SocketErrand

# Notices that may wait for a slow reader before it is dropped, and seconds until it has to say its token
MOST_NOTICES, TOKEN_SECONDS = 1000, 10.0
TRY_AGAIN_LATER, BAD_TOKEN = 1013, 4401
# Seconds for readers to hear that the gateway ends
GOODBYE_SECONDS = 2.0
_text = json.JSONEncoder(separators=(",", ":")).encode


class Seat:
    """It hears of the errands that it posted, or of all of its client's, and of everybody's where that is an operator. Of
    ticks only the latest waits, so a slow reader misses some."""

    def __init__(self, request: web.Request, socket: web.WebSocketResponse, client: Client, every: Optional[float]) -> None:
        self.socket, self.client, self.every, self.hears_all = socket, client, every, "all" in request.query
        self.notices: Deque[str] = collections.deque()
        self.tick: Optional[str] = None
        self.next_tick = 0.0
        self.is_dropped = False
        self._transport = request.transport
        self._wake = asyncio.Event()

    def notice(self, text: str) -> bool:
        """Returns whether the reader is dropped for it."""
        if self.is_dropped:
            return False
        if len(self.notices) < MOST_NOTICES:
            self.notices.append(text)
            self._wake.set()
            return False
        self.drop()
        return True

    def drop(self) -> None:
        self.is_dropped = True
        if self._transport is not None:
            self._transport.abort()

    def see(self, text: str, now: float) -> None:
        self.tick, self.next_tick = text, now + (self.every or 0.0)
        self._wake.set()

    async def feed(self) -> None:
        """Sends what there is, to the end."""
        while True:
            await self._wake.wait()
            self._wake.clear()
            while self.notices:
                await self.socket.send_str(self.notices.popleft())
            if self.tick is not None:
                text, self.tick = self.tick, None
                await self.socket.send_str(text)


class Seats:
    """`take(client, robot, cell, key)` is the door's."""

    def __init__(self, guard: Guard) -> None:
        self.guard = guard
        self.dropped = 0
        # whether "stands" comes after "arrival"
        self.tells_stands = False
        self.take: Callable[..., Tuple[Errand, bool]]
        self._of: "collections.defaultdict[str, List[Seat]]" = collections.defaultdict(list)
        self._all: List[Seat] = []
        # those that hear of more than they posted
        self._listeners: List[Seat] = []

    def __len__(self) -> int:
        return len(self._all)

    async def close(self, _app: Optional[web.Application] = None) -> None:
        """Ends all, since the gateway ends: it would wait for them."""
        closing = [asyncio.ensure_future(seat.socket.close()) for seat in self._all]
        if closing:
            await asyncio.wait(closing, timeout=GOODBYE_SECONDS)
        for seat in self._all:
            seat.drop()

    # ---- what the desk tells

    def tell(self, kind: str, what: Any, cells: Optional[List[int]] = None) -> None:
        if kind == "tick":
            self._tick(what, cells)
            return
        told = {"kind": kind, "errand": what.view()}
        if kind == "verdict":
            told["status"] = _status_of(what)
        hearers = [it for it in self._listeners if it.client.is_operator or it.client.name == what.owner]
        if what.seat is not None and not what.seat.hears_all:
            hearers.append(what.seat)
        if hearers:
            text = _text(told)
            for seat in hearers:
                self.dropped += seat.notice(text)
        if not what.is_open and not (kind == "arrival" and self.tells_stands):
            what.seat = None

    def _tick(self, tick: int, cells: Optional[List[int]]) -> None:
        now, text = time.monotonic(), ""
        for seat in self._all:
            if seat.every is not None and now >= seat.next_tick:
                text = text or _text({"kind": "tick", "tick": tick, "cells": cells})
                seat.see(text, now)

    # ---- a connection

    async def serve(self, request: web.Request) -> web.StreamResponse:
        every = number_in(request, "ticks", 0, 60_000, -1) / 1000
        socket = web.WebSocketResponse(heartbeat=20, max_msg_size=MOST_BYTES, compress=False)
        if not socket.can_prepare(request):
            raise refusal.Refusal(400, "no-socket")
        has_header = bool(bearer(request)) or not self.guard.clients.has_tokens
        client = self.guard.client(request) if has_header else None
        if client is not None:
            self._need_seat(client)
        await socket.prepare(request)
        if client is None:
            client = await self._client_of(socket)
            if client is None:
                return socket
        seat = Seat(request, socket, client, None if every < 0 else every)
        await self._sit(seat)
        return socket

    def _need_seat(self, client: Client) -> None:
        if len(self._of[client.name]) >= client.sockets:
            raise refusal.Refusal(429, "too-many-sockets", wait=5.0)

    async def _client_of(self, socket: web.WebSocketResponse) -> Optional[Client]:
        """A browser cannot send a header here: its first message has the token."""
        try:
            told = json.loads(await socket.receive_str(timeout=TOKEN_SECONDS))
            client = self.guard.clients.of(str(told["token"]))
        except (ValueError, TypeError, KeyError, RecursionError, asyncio.TimeoutError):
            client = None
        if client is None:
            await socket.close(code=BAD_TOKEN, message=b"token")
        elif len(self._of[client.name]) >= client.sockets:
            await socket.close(code=TRY_AGAIN_LATER, message=b"too-many-sockets")
            return None
        return client

    async def _sit(self, seat: Seat) -> None:
        self._of[seat.client.name].append(seat)
        self._all.append(seat)
        if seat.hears_all:
            self._listeners.append(seat)
        seat.notice(_text({"kind": "hello", "client": seat.client.name, "is_operator": seat.client.is_operator}))
        feeding = asyncio.ensure_future(seat.feed())
        try:
            async for message in seat.socket:
                if message.type != WSMsgType.TEXT:
                    break
                self._heard(seat, message.data)
        finally:
            feeding.cancel()
            self._of[seat.client.name].remove(seat)
            self._all.remove(seat)
            seat.is_dropped = True
            if seat.hears_all:
                self._listeners.remove(seat)

    def _heard(self, seat: Seat, data: str) -> None:
        """A post. Its verdict and its arrival come to this seat, also if the same key was posted from another one before."""
        key = None
        try:
            asked = checked(data, SocketErrand)
            key = asked.key
            errand, is_new = self.take(seat.client, asked.robot, asked.cell, key)
            if errand.is_open:
                errand.seat = seat
            if not is_new and errand.state != POSTED:
                seat.notice(_text({"kind": "verdict", "errand": errand.view(), "status": _status_of(errand, 200)}))
        except refusal.Refusal as why:
            told = {"kind": "refusal", "status": why.status, "key": key, **why.view()}
            if why.wait is not None:
                told["retry_after"] = why.wait
            seat.notice(_text(told))


def _status_of(errand: Errand, accepted: int = 201) -> int:
    return refusal.of_verdict(errand.reason or "").status if errand.state == REFUSED else accepted

"""What the tests share: a gateway over a small map, in this process, whose answers are compared with its OpenAPI description."""

import asyncio
import contextlib
import hashlib
import logging
import os
import pathlib
import re
import sys
import tempfile
import unittest

HERE = pathlib.Path(__file__).resolve().parent
sys.path[:0] = [str(HERE.parent), str(HERE.parent.parent / "bindings" / "python")]

import aiohttp
from aiohttp.test_utils import TestServer

from nashirudder_gateway import door, routes, seats, vehicle_site
from nashirudder_gateway.clients import Client, Clients
from nashirudder_gateway.desk import Desk
from nashirudder_gateway.door import Door
from nashirudder_gateway.guard import Guard
from nashirudder_gateway.seats import Seats
from nashirudder_gateway.site import Site
from nashirudder_gateway.vda5050 import Name

# A ring of twelve cells around a wall, and a floor of its own in the last column: cells count row by row from 0
RING = "type octile\nheight 4\nwidth 6\nmap\n....@.\n.@@.@@\n.@@.@@\n....@@\n"
WALL, ELSEWHERE, NO_CELL = 7, 5, 24
BIN = os.environ.get("NASHIRUDDER_BIN")
# what the gateway says of fleets that are killed on purpose, and asyncio of a machine that is busy
logging.getLogger("nashirudder_gateway").setLevel(logging.CRITICAL)
logging.getLogger("asyncio").setLevel(logging.CRITICAL)
# a machine may be as slow as it likes: a test that needs one of these times sets it
door.VERDICT_SECONDS = seats.TOKEN_SECONDS = door.LATE = 120.0


def client(name, token, **limits):
    return Client(name, hashlib.sha256(token.encode()).digest(), **limits)


def two_clients():
    return Clients([client("alice", "a"), client("bob", "b"), client("ops", "o", is_operator=True)])


def declared(method, path):
    """The statuses that the description has for a request."""
    for route in routes.ROUTES:
        if route.method == method and re.fullmatch(re.sub(r"\{\w+\}", "[0-9]+", route.path), path):
            return route.statuses
    raise AssertionError(f"the description has no {method} {path}")


class Gateway:
    """A gateway on a fleet of two robots, at the cells 0 and 3, with a turn every 10 ms."""

    def __init__(self, folder, clients=None, period=10.0, keep_every=100.0, broker=None, **limits):
        self.folder, self.clients = pathlib.Path(folder), clients or Clients()
        path = self.folder / "ring.map"
        path.write_text(RING)
        self.site = Site("ring", path, [0, 3], self.folder / "data", period, keep_every, BIN)
        self.site.limits.update(limits)
        self.broker_at = broker

    async def __aenter__(self):
        self.seats = Seats(Guard(self.clients))
        self.broker = vehicles = None
        if self.broker_at is not None:
            vehicles, self.broker = vehicle_site.opened(self.site, [Name("nashirudder", "0"), Name("nashirudder", "1")], self.broker_at)
            self.seats.tells_stands = True
            self.broker.start()
        self.desk = Desk(self.site, self.seats.tell, vehicles=vehicles)
        self.running = asyncio.ensure_future(self.desk.run())
        self.server = TestServer(Door(self.desk, self.seats.guard, self.seats).app())
        await self.server.start_server()
        self.session = aiohttp.ClientSession()
        await self.until(lambda: self.desk.is_ready)
        return self

    async def __aexit__(self, *_):
        await self.session.close()
        await self.desk.close()
        await self.running
        await self.server.close()
        self.desk.end()
        if self.broker is not None:
            self.broker.close()

    async def until(self, is_so, seconds=120):
        """Waits for what has to come."""
        for _ in range(seconds * 100):
            if is_so():
                return
            if self.running.done():
                self.running.result()
            await asyncio.sleep(0.01)
        raise AssertionError("it did not come")

    async def ask(self, method, path, told=None, token=None, **words):
        """The status, the answer and its headers."""
        headers = words.pop("headers", {})
        if token is not None:
            headers["Authorization"] = f"Bearer {token}"
        async with self.session.request(method, self.server.make_url(path), json=told, headers=headers, **words) as answer:
            bare = path.split("?")[0]
            if answer.status not in declared(method, bare):
                raise AssertionError(f"the description of {method} {bare} has no status {answer.status}: {await answer.text()}")
            is_json = answer.content_type == "application/json"
            return answer.status, await (answer.json() if is_json else answer.text()), answer.headers

    async def post(self, robot, cell, key=None, token=None):
        return await self.ask("POST", "/errands", {"robot": robot, "cell": cell}, token, headers={"Idempotency-Key": key} if key else {})

    async def errand(self, id, token=None):
        return (await self.ask("GET", f"/errands/{id}", token=token))[1]

    @contextlib.asynccontextmanager
    async def socket(self, query="", token=None, **words):
        """A WebSocket after its greeting."""
        async with self.session.ws_connect(self.server.make_url("/stream" + query), **words) as socket:
            if token is not None:
                await socket.send_json({"token": token})
            hello = await socket.receive_json(timeout=120)
            assert hello["kind"] == "hello", hello
            yield socket


class Case(unittest.IsolatedAsyncioTestCase):
    def setUp(self):
        room = tempfile.TemporaryDirectory(prefix="gateway-")
        self.addCleanup(room.cleanup)
        self.folder = pathlib.Path(room.name)

    def gateway(self, *words, **more):
        return Gateway(self.folder, *words, **more)

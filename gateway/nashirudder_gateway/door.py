"""The door: answers the routes."""

import pathlib
import sqlite3
import time
from typing import Awaitable, List, Optional, Tuple

from aiohttp import web

from nashirudder.errors import FleetError

from . import __version__, routes
from .clients import Client
from .desk import STUCK, Desk
from .errand import ACCEPTED, POSTED, REFUSED, WITHDRAWN, Errand
from .guard import MOST_BYTES, Guard, as_json, body, key_of, number_in
from .models import NewErrand
from .refusal import Refusal, of_verdict
from .seats import Seats

# Seconds that a post waits for its verdict
VERDICT_SECONDS = 2.0
# Turns may come so much later than the period before the gateway is not well, in seconds
LATE = 5.0
_PAGE = {"/": ("page.html", "text/html"), "/page.js": ("page.js", "text/javascript"), "/page.css": ("page.css", "text/css")}
_POLICY = ("default-src 'none'; script-src 'self'; style-src 'self'; connect-src 'self'; img-src 'self' data:; base-uri 'none'; "
           "form-action 'none'; frame-ancestors 'none'")


class Door:
    def __init__(self, desk: Desk, guard: Guard, seats: Seats) -> None:
        self.desk, self.guard, self.seats = desk, guard, seats
        here = pathlib.Path(__file__).parent
        self._pages = {path: ((here / name).read_text(), kind) for path, (name, kind) in _PAGE.items()}
        self._openapi = routes.describe()
        seats.take = self.take

    def app(self) -> web.Application:
        app = web.Application(client_max_size=MOST_BYTES, middlewares=[self.guard.middleware])
        app.on_shutdown.append(self.seats.close)
        for route in routes.ROUTES:
            path = route.path.replace("{id}", r"{id:[0-9]{1,18}}").replace("{robot}", r"{robot:[0-9]{1,9}}")
            app.router.add_route(route.method, path, getattr(self, route.name))
        return app

    # ---- errands

    def take(self, client: Client, robot: int, cell: int, key: Optional[str]) -> Tuple[Errand, bool]:
        """The errand of a post, and whether it is new. Raises Refusal if it was not taken."""
        wait = client.wait()
        if wait:
            raise Refusal(429, "rate", wait=wait)
        before = None if key is None else self.desk.journal.of_key(client.name, key)
        if before is not None:
            if (before.robot, before.cell) != (robot, cell):
                raise Refusal(409, "key-reused")
            return before, False
        why = self.desk.refusal()
        if why is not None:
            raise Refusal(503, why, wait=1.0)
        if self.desk.open_of[client.name] >= client.open:
            raise Refusal(429, "too-many-open", wait=1.0)
        return self.desk.post(client.name, robot, cell, key), True

    async def post_errand(self, request: web.Request) -> web.Response:
        client, key = self.guard.client(request), key_of(request)
        asked = await body(request, NewErrand)
        errand, is_new = self.take(client, asked.robot, asked.cell, key)
        await self.desk.verdict(errand, VERDICT_SECONDS)
        if errand.state == REFUSED:
            raise of_verdict(errand.reason or "")
        if errand.state == POSTED and not errand.is_written:
            raise Refusal(503, "behind", wait=1.0)
        status = 202 if errand.state == POSTED else 201 if is_new else 200
        return as_json(errand.view(), status, {"Location": f"/errands/{errand.id}"})

    def _own(self, request: web.Request) -> Errand:
        """The errand of the path, if the client may read it: another's is as none."""
        client, errand = self.guard.client(request), self.desk.journal.find(int(request.match_info["id"]))
        if errand is None or not (client.is_operator or errand.owner == client.name):
            raise Refusal(404, "no-errand")
        return errand

    async def get_errand(self, request: web.Request) -> web.Response:
        return as_json(self._own(request).view())

    async def list_errands(self, request: web.Request) -> web.Response:
        client, state = self.guard.client(request), request.query.get("state")
        if state not in (None, "open", "closed"):
            raise Refusal(422, "query", "state is neither open nor closed")
        after, limit = number_in(request, "after", 0, 2**62, 0), number_in(request, "limit", 1, 1000, 100)
        found = self.desk.journal.listed(None if client.is_operator else client.name, None if state is None else state == "open", after, limit + 1)
        has_more = len(found) > limit
        return as_json({"errands": [it.view() for it in found[:limit]], "next": found[limit - 1].id if has_more else None})

    async def withdraw_errand(self, request: web.Request) -> web.Response:
        errand, wait = self._own(request), self.guard.client(request).wait()
        if wait:
            raise Refusal(429, "rate", wait=wait)
        if errand.state == WITHDRAWN:
            return as_json(errand.view())
        if errand.state != ACCEPTED:
            raise Refusal(409, errand.state, f"the errand is {errand.state}")
        if not self.desk.is_ready:
            raise Refusal(503, "not-ready", wait=1.0)
        verdict = await self.desk.withdraw(errand, VERDICT_SECONDS)
        if verdict is not None and verdict != WITHDRAWN:
            raise of_verdict(verdict) if verdict != "no-errand" else Refusal(409, "too-late")
        return as_json(errand.view(), 202 if verdict is None else 200)

    # ---- the fleet

    async def list_robots(self, request: web.Request) -> web.Response:
        self.guard.client(request)
        return as_json({"tick": self.desk.tick, "robots": self.desk.robots.views(self.desk.tick)})

    def _robot(self, request: web.Request) -> int:
        robot = int(request.match_info["robot"])
        if robot >= len(self.desk.robots.cells):
            raise Refusal(404, "no-robot")
        return robot

    async def get_robot(self, request: web.Request) -> web.Response:
        self.guard.client(request)
        return as_json(self.desk.robots.view(self._robot(request), self.desk.tick))

    async def list_vehicles(self, request: web.Request) -> web.Response:
        self.guard.client(request)
        vehicles = self.desk.vehicles
        if vehicles is None:
            raise Refusal(404, "no-vehicles")
        return as_json({"is_set": vehicles.is_set, "vehicles": vehicles.views()})

    async def _done(self, asked: Awaitable[List[str]]) -> web.Response:
        """The fleet's answer to an operator."""
        try:
            words = await asked
        except FleetError:
            raise Refusal(503, "not-ready", wait=1.0) from None
        except sqlite3.Error:
            raise Refusal(503, "behind", wait=1.0) from None
        if words[0].endswith("-refused"):
            raise Refusal(409, {"already": "already-shut"}.get(words[-1], words[-1]))
        return as_json({"done": " ".join(words)})

    async def shut_robot(self, request: web.Request) -> web.Response:
        self.guard.operator(request)
        return await self._done(self.desk.shut(self._robot(request)))

    async def end_chapter(self, request: web.Request) -> web.Response:
        self.guard.operator(request)
        return await self._done(self.desk.ask("chapter"))

    async def get_site(self, request: web.Request) -> web.Response:
        self.guard.client(request)
        return as_json({**self.desk.site.view(), "version": __version__, "tick": self.desk.tick})

    # ---- how it is

    def _health(self, is_well: bool) -> web.Response:
        desk = self.desk
        told = {"is_ready": desk.is_ready, "trouble": desk.what_is_wrong, "tick": desk.tick, "unanswered": desk.unanswered}
        return as_json(told, 200 if is_well else 503, None if is_well else {"Retry-After": "1"})

    async def get_health(self, _request: web.Request) -> web.Response:
        desk, now = self.desk, time.monotonic()
        is_stuck = bool(desk.busy_since) and now - desk.busy_since > STUCK
        is_late = desk.is_ready and now - desk.latest_turn > LATE + desk.site.period_ms / 1000
        return self._health(not is_stuck and not is_late)

    async def get_ready(self, _request: web.Request) -> web.Response:
        return self._health(self.desk.refusal() is None)

    async def get_metrics(self, request: web.Request) -> web.Response:
        self.guard.client(request)
        desk, figures = self.desk, self.desk.site.figures
        lines = [f"{name} {count}" for name, count in sorted(desk.counts.items())]
        lines += [f"gateway_ready {int(desk.is_ready)}", f"gateway_errands_open {desk.open_of.total()}",
                  f"gateway_unanswered {desk.unanswered}", f"gateway_sockets {len(self.seats)}",
                  f"gateway_sockets_dropped_total {self.seats.dropped}"]
        if desk.vehicles is not None:
            lines += [f"gateway_vehicle_moves_total {desk.vehicles.moves}", f"gateway_vehicle_messages_bad_total {desk.vehicles.bad_messages}",
                      f"gateway_vehicle_factsheets_bad {sum(it.factsheet_fault is not None for it in desk.vehicles.all)}",
                      f"gateway_vehicles_in_trouble {sum(it.trouble is not None for it in desk.vehicles.all)}"]
        return web.Response(text=(figures.read_text() if figures.exists() else "") + "\n".join(lines) + "\n")

    async def stream(self, request: web.Request) -> web.StreamResponse:
        return await self.seats.serve(request)

    async def get_openapi(self, _request: web.Request) -> web.Response:
        return as_json(self._openapi)

    async def get_page(self, request: web.Request) -> web.Response:
        text, kind = self._pages[request.path]
        return web.Response(text=text, content_type=kind, headers={"Content-Security-Policy": _POLICY})

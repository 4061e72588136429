"""What each request meets first: where it may come from, whose it is, and how its answer is told."""

import asyncio
import json
import math
import re
from typing import Any, Awaitable, Callable, Iterable, Optional, Type, TypeVar

from aiohttp import web
from pydantic import BaseModel, ValidationError

from . import models
from .clients import Client, Clients
from .refusal import Refusal

# bytes of a body, seconds for it, and how often a request that can be repeated may be
MOST_BYTES, BODY_SECONDS = 4096, 10.0
_KEY = re.compile(models.KEY)
_HEADERS = {"X-Content-Type-Options": "nosniff", "Referrer-Policy": "no-referrer", "Cache-Control": "no-store"}
_encode = json.JSONEncoder(separators=(",", ":")).encode
Model = TypeVar("Model", bound=BaseModel)


def as_json(told: Any, status: int = 200, headers: Optional[dict] = None) -> web.Response:
    return web.Response(text=_encode(told), status=status, headers=headers, content_type="application/json")


class Guard:
    """`names` are the hosts, besides those of this machine, under which the gateway is reached, without ports."""

    def __init__(self, clients: Clients, names: Iterable[str] = ()) -> None:
        self.clients = clients
        self.names = {"127.0.0.1", "localhost", "[::1]", *(name.lower() for name in names)}

    def check_source(self, request: web.Request) -> None:
        """Refuses a Host that is another's (a name that was made to point here), and an Origin that is not this Host: a
        page from elsewhere."""
        host = request.headers.get("Host", "").lower()
        if re.sub(r":\d+$", "", host) not in self.names:
            raise Refusal(403, "host")
        origin = request.headers.get("Origin")
        if origin is not None and origin.lower() not in (f"http://{host}", f"https://{host}"):
            raise Refusal(403, "origin")

    def client(self, request: web.Request) -> Client:
        """Whose request it is."""
        found = self.clients.of(bearer(request))
        if found is None:
            raise Refusal(401, "token")
        return found

    def operator(self, request: web.Request) -> Client:
        found = self.client(request)
        if not found.is_operator:
            raise Refusal(403, "operator")
        return found

    @web.middleware
    async def middleware(self, request: web.Request, handler: Callable[[web.Request], Awaitable[web.StreamResponse]]) -> web.StreamResponse:
        """Refusals become answers, and each answer gets the headers that all have."""
        try:
            self.check_source(request)
            answer = await handler(request)
        except Refusal as refusal:
            headers = {} if refusal.wait is None else {"Retry-After": str(max(1, math.ceil(refusal.wait)))}
            if refusal.status == 401:
                headers["WWW-Authenticate"] = "Bearer"
            answer = as_json(refusal.view(), refusal.status, headers)
        except web.HTTPRequestEntityTooLarge:
            answer = as_json(Refusal(413, "too-long").view(), 413)
        except web.HTTPException as error:
            answer = as_json(Refusal(error.status, "no-route").view(), error.status)
        if not answer.prepared:
            answer.headers.update(_HEADERS)
        return answer


def bearer(request: web.Request) -> str:
    """The token of the request, or an empty one."""
    kind, _, token = request.headers.get("Authorization", "").partition(" ")
    return token.strip() if kind.lower() == "bearer" else ""


async def body(request: web.Request, model: Type[Model]) -> Model:
    """The body, checked. A page from elsewhere can send no application/json without having asked first."""
    kind = request.headers.get("Content-Type", "").partition(";")[0]
    if kind.strip().lower() != "application/json":
        raise Refusal(415, "not-application/json")
    try:
        data = await (request.read() if request.content.is_eof() else asyncio.wait_for(request.read(), BODY_SECONDS))
    except asyncio.TimeoutError:
        raise Refusal(422, "too-slow") from None
    return checked(data, model)


def checked(data: "bytes | str", model: Type[Model]) -> Model:
    """JSON of this model. Raises Refusal with what is at fault."""
    try:
        return model.parse_obj(json.loads(data))
    except ValidationError as error:
        told = "; ".join(f"{'.'.join(map(str, it['loc']))}: {it['msg']}" for it in error.errors())
        raise Refusal(422, "body", told) from None
    except (ValueError, RecursionError):
        raise Refusal(422, "not-json") from None


def key_of(request: web.Request) -> Optional[str]:
    key = request.headers.get("Idempotency-Key")
    if key is not None and not _KEY.fullmatch(key):
        raise Refusal(422, "key")
    return key


def number_in(request: web.Request, name: str, least: int, most: int, default: int) -> int:
    """A number of the query."""
    text = request.query.get(name)
    if text is None:
        return default
    if not re.fullmatch("[0-9]{1,18}", text) or not least <= int(text) <= most:
        raise Refusal(422, "query", f"{name} is no number from {least} to {most}")
    return int(text)

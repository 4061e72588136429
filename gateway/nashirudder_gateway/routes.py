"""The routes of the gateway: what each takes and answers. The OpenAPI description is made of them."""

from dataclasses import dataclass
from typing import Dict, Optional, Tuple, Type

from pydantic import BaseModel

from . import __version__, models

REFUSED = {
    401: "no client has this token", 403: "the Host or Origin is not this gateway's, or it is for operators",
    404: "there is no such errand or robot, or no vehicle", 409: "see `error`: the key has another errand, the robot is shut, it is too late",
    413: "the body is too long", 415: "the body is not application/json", 422: "the body, a number or the cell is at fault",
    429: "the queue is full, or the client has too much open or posts too fast: again after Retry-After seconds",
    503: "the fleet is starting or is behind: again after Retry-After seconds"}
_ALWAYS = (403, 503)


@dataclass(frozen=True)
class Route:
    """`answers` are the statuses that are no refusals, with what comes back. `token` is who may: "", "client" or
    "operator"."""

    method: str
    path: str
    name: str
    summary: str
    answers: Dict[int, Optional[Type[BaseModel]]]
    refusals: Tuple[int, ...] = ()
    body: Optional[Type[BaseModel]] = None
    token: str = "client"
    query: Tuple[str, ...] = ()

    @property
    def statuses(self) -> Tuple[int, ...]:
        token = {"": (), "client": (401,), "operator": (401,)}[self.token]
        return tuple(sorted({*self.answers, *self.refusals, *token, *_ALWAYS}))


ROUTES = (
    Route("POST", "/errands", "post_errand", "Posts an errand, once for each Idempotency-Key. 201: accepted. 200: posted before by this key. "
          "202: on the disk, and without a verdict yet", {200: models.ErrandView, 201: models.ErrandView, 202: models.ErrandView},
          (404, 409, 413, 415, 422, 429), models.NewErrand),
    Route("GET", "/errands", "list_errands", "The client's errands by rising id; all clients' for an operator", {200: models.ErrandList},
          (422,), query=("state", "after", "limit")),
    Route("GET", "/errands/{id}", "get_errand", "An errand of the client", {200: models.ErrandView}, (404,)),
    Route("DELETE", "/errands/{id}", "withdraw_errand", "Takes back an errand that its robot is not heading for yet. 202: no verdict yet",
          {200: models.ErrandView, 202: models.ErrandView}, (404, 409, 429)),
    Route("GET", "/robots", "list_robots", "All robots after the last turn", {200: models.RobotList}),
    Route("GET", "/robots/{robot}", "get_robot", "A robot after the last turn", {200: models.RobotView}, (404,)),
    Route("GET", "/vehicles", "list_vehicles", "Each robot's vehicle: where it says it is, where it is bound for, and what keeps it from being sent on",
          {200: models.VehicleList}, (404,)),
    Route("POST", "/robots/{robot}/shut", "shut_robot", "The robot finishes its errands and gets no more, for good", {200: models.Done},
          (404, 409), token="operator"),
    Route("POST", "/chapter", "end_chapter", "Ends the chapter, and the next begins", {200: models.Done}, (409,), token="operator"),
    Route("GET", "/site", "get_site", "The map, and how the fleet runs", {200: models.SiteView}),
    Route("GET", "/metrics", "get_metrics", "Figures of the fleet and the gateway, as Prometheus reads them", {200: None}),
    Route("GET", "/health", "get_health", "Whether this process works; 503 if its disk or its fleet is stuck", {200: models.Health}, token=""),
    Route("GET", "/ready", "get_ready", "Whether errands can be posted", {200: models.Health}, token=""),
    Route("GET", "/stream", "stream", "A WebSocket (docs/GATEWAY.md): posts in, verdicts, arrivals and ticks out", {101: None}, (400, 422, 429),
          query=("ticks", "all")),
    Route("GET", "/openapi.json", "get_openapi", "This description", {200: None}, token=""),
    Route("GET", "/", "get_page", "The page that shows the fleet", {200: None}, token=""),
    Route("GET", "/page.js", "get_page", "Its script", {200: None}, token=""),
    Route("GET", "/page.css", "get_page", "Its style", {200: None}, token=""),
)

_QUERIES = {
    "state": ("`open`: those that are neither done nor refused; `closed`: the others", {"type": "string", "enum": ["open", "closed"]}),
    "after": ("only errands with a greater id", {"type": "integer", "minimum": 0}),
    "limit": ("how many at most", {"type": "integer", "minimum": 1, "maximum": 1000, "default": 100}),
    "ticks": ("milliseconds between ticks at least; none are told without it", {"type": "integer", "minimum": 0, "maximum": 60000}),
    "all": ("also of errands that were posted elsewhere: all of the client's, everybody's for an operator", {"type": "string"}),
}


def describe() -> dict:
    """The OpenAPI description."""
    schemas: Dict[str, dict] = {}
    paths: Dict[str, dict] = {}
    for route in ROUTES:
        paths.setdefault(route.path, {})[route.method.lower()] = _operation(route, schemas)
    return {
        "openapi": "3.0.3",
        "info": {"title": "Nashirudder's gateway", "version": __version__, "license": {"name": "MIT OR Apache-2.0"}},
        "paths": paths,
        "components": {"schemas": schemas, "securitySchemes": {"token": {"type": "http", "scheme": "bearer"}}}}


def _reference(model: Type[BaseModel], schemas: Dict[str, dict]) -> dict:
    schema = dict(model.schema(ref_template="#/components/schemas/{model}"))     # pydantic keeps its own for the next call
    schemas.update(schema.pop("definitions", {}))
    schemas[model.__name__] = schema
    return {"application/json": {"schema": {"$ref": f"#/components/schemas/{model.__name__}"}}}


def _operation(route: Route, schemas: Dict[str, dict]) -> dict:
    parameters = [{"name": name, "in": "query", "description": _QUERIES[name][0], "schema": _QUERIES[name][1]} for name in route.query]
    parameters += [{"name": name, "in": "path", "required": True, "schema": {"type": "integer", "minimum": 0}}
                   for name in ("id", "robot") if "{" + name + "}" in route.path]
    if route.body is not None:
        parameters.append({"name": "Idempotency-Key", "in": "header", "schema": {"type": "string", "pattern": models.KEY},
                           "description": "the same key and errand again are one errand"})
    told: dict = {"operationId": f"{route.name}{route.path[5:].replace('.', '_') if route.name == 'get_page' else ''}",
                  "summary": route.summary, "parameters": parameters, "responses": {}}
    for status in route.statuses:
        is_answer = status in route.answers or route.path in ("/health", "/ready")
        model = route.answers.get(status, models.Health) if is_answer else models.Problem
        told["responses"][str(status)] = {
            "description": route.summary if status in route.answers else REFUSED.get(status, "it is no WebSocket")}
        if model is not None:
            told["responses"][str(status)]["content"] = _reference(model, schemas)
    if route.body is not None:
        told["requestBody"] = {"required": True, "content": _reference(route.body, schemas)}
    if route.token:
        told["security"] = [{"token": []}]
    return told

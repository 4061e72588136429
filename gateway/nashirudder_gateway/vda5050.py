"""Messages of VDA 5050, version 2.0: those that a fleet on a grid sends and hears. Written from memory of the published schemas; what
comes in is checked field by field, and fields that are not named here are let through."""

import datetime
from dataclasses import dataclass
from typing import Any, Dict, Iterator, List, NamedTuple, Optional, Tuple

from pydantic import BaseModel, Field, conint, constr, validator

VERSION = "2.0.0"
ONLINE, OFFLINE, BROKEN = "ONLINE", "OFFLINE", "CONNECTIONBROKEN"
# No number of a factsheet is that great
MOST = 1e6
Message = Dict[str, Any]
_Count = conint(strict=True, ge=0, lt=2**32)
_Word = constr(strict=True, max_length=256)


class Header(BaseModel):
    """What each message begins with."""

    headerId: _Count  # type: ignore[valid-type]
    timestamp: _Word  # type: ignore[valid-type]
    version: _Word  # type: ignore[valid-type]
    manufacturer: _Word  # type: ignore[valid-type]
    serialNumber: _Word  # type: ignore[valid-type]


class Position(BaseModel):
    """Where a vehicle is, in cells: the middle of the map's first cell is (0, 0), and y grows from row to row."""

    x: float
    y: float
    mapId: _Word  # type: ignore[valid-type]
    positionInitialized: bool


class VehicleError(BaseModel):
    errorType: _Word  # type: ignore[valid-type]
    errorLevel: str = Field(..., regex="^(WARNING|FATAL)$")
    errorDescription: Optional[str]


class NodeState(BaseModel):
    nodeId: _Word  # type: ignore[valid-type]
    sequenceId: _Count  # type: ignore[valid-type]
    released: bool


class EdgeState(BaseModel):
    edgeId: _Word  # type: ignore[valid-type]
    sequenceId: _Count  # type: ignore[valid-type]
    released: bool


class SafetyState(BaseModel):
    eStop: str = Field(..., regex="^(AUTOACK|MANUAL|REMOTE|NONE)$")
    fieldViolation: bool


class BatteryState(BaseModel):
    batteryCharge: float = Field(..., ge=0, le=100)
    charging: bool


class State(Header):
    """How a vehicle stands."""

    orderId: _Word  # type: ignore[valid-type]
    orderUpdateId: _Count  # type: ignore[valid-type]
    lastNodeId: _Word  # type: ignore[valid-type]
    lastNodeSequenceId: _Count  # type: ignore[valid-type]
    driving: bool
    operatingMode: str = Field(..., regex="^(AUTOMATIC|SEMIAUTOMATIC|MANUAL|SERVICE|TEACHIN)$")
    nodeStates: List[NodeState]
    edgeStates: List[EdgeState]
    agvPosition: Optional[Position]
    actionStates: List[Dict[str, Any]]
    batteryState: BatteryState
    errors: List[VehicleError]
    safetyState: SafetyState


class Connection(Header):
    """Whether a vehicle is connected. The broker tells CONNECTIONBROKEN as its last will."""

    connectionState: str = Field(..., regex=f"^({ONLINE}|{OFFLINE}|{BROKEN})$")


class TypeSpecification(BaseModel):
    """What kind of vehicle it is."""

    seriesName: _Word  # type: ignore[valid-type]
    agvKinematic: str = Field(..., regex="^(DIFF|OMNI|THREEWHEEL)$")
    agvClass: str = Field(..., regex="^(FORKLIFT|CONVEYOR|TUGGER|CARRIER)$")
    maxLoadMass: float = Field(..., ge=0, lt=MOST)
    localizationTypes: List[_Word]  # type: ignore[valid-type]
    navigationTypes: List[_Word]  # type: ignore[valid-type]


class PhysicalParameters(BaseModel):
    """How fast and how large it is: metres, and seconds."""

    speedMin: float = Field(..., ge=0, lt=MOST)
    speedMax: float = Field(..., gt=0, lt=MOST)
    accelerationMax: float = Field(..., gt=0, lt=MOST)
    decelerationMax: float = Field(..., gt=0, lt=MOST)
    heightMax: float = Field(..., gt=0, lt=MOST)
    width: float = Field(..., gt=0, lt=MOST)
    length: float = Field(..., gt=0, lt=MOST)

    @validator("speedMax")
    def is_not_slower(cls, fastest: float, values: Dict[str, Any]) -> float:
        """The least speed was read before."""
        if fastest < values.get("speedMin", 0):
            raise ValueError("it is less than speedMin")
        return fastest


class Factsheet(Header):
    """What a vehicle is."""

    typeSpecification: TypeSpecification
    physicalParameters: PhysicalParameters
    protocolLimits: Dict[str, Any]
    protocolFeatures: Dict[str, Any]
    agvGeometry: Dict[str, Any]
    loadSpecification: Dict[str, Any]


class Stop(NamedTuple):
    """A cell on a vehicle's way. Nodes have even numbers, and each edge the odd one before its end."""

    cell: int
    sequence: int


@dataclass(frozen=True)
class Name:
    """A vehicle's name on the broker."""

    manufacturer: str
    serial: str

    def topic(self, site: str, kind: str) -> str:
        return f"{site}/v2/{self.manufacturer}/{self.serial}/{kind}"


def node_id(cell: int) -> str:
    return f"c{cell}"


def cell_of(node: str) -> Optional[int]:
    """The cell of a node, or None if no node of ours is named so."""
    return int(node[1:]) if node[:1] == "c" and node[1:].isascii() and node[1:].isdigit() and len(node) < 12 else None


def header(number: int, name: Name) -> Message:
    now = datetime.datetime.now(datetime.timezone.utc)
    return {"headerId": number, "timestamp": now.strftime("%Y-%m-%dT%H:%M:%S.") + f"{now.microsecond // 10_000:02d}Z", "version": VERSION,
            "manufacturer": name.manufacturer, "serialNumber": name.serial}


def _nodes(stops: List[Stop], released: int, width: int, site: str) -> Iterator[Message]:
    for stop in stops:
        y, x = divmod(stop.cell, width)
        yield {"nodeId": node_id(stop.cell), "sequenceId": stop.sequence, "released": stop.sequence <= released, "actions": [],
               "nodePosition": {"x": float(x), "y": float(y), "mapId": site}}


def _edges(stops: List[Stop], released: int) -> Iterator[Message]:
    for start, end in zip(stops, stops[1:]):
        yield {"edgeId": f"{node_id(start.cell)}-{node_id(end.cell)}", "sequenceId": end.sequence - 1, "released": end.sequence <= released,
               "startNodeId": node_id(start.cell), "endNodeId": node_id(end.cell), "actions": []}


def order(head: Message, order_id: str, stops: List[Stop], released: int, map_of: Tuple[int, str]) -> Message:
    """The order over these stops, of which the first is the one that the vehicle reached last. Those up to the number `released` are its
    base, the others its horizon. Each release is an update: the first one has the number 0. `map_of` has the map's width and name."""
    return {**head, "orderId": order_id, "orderUpdateId": released // 2, "nodes": list(_nodes(stops, released, *map_of)),
            "edges": list(_edges(stops, released))}


def request(kind: str, number: str) -> Message:
    """The instant action by which a vehicle is asked for its "state" or its "factsheet"."""
    return {"actionType": f"{kind}Request", "actionId": f"{kind}-{number}", "blockingType": "NONE", "actionParameters": []}

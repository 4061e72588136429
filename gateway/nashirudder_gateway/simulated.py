"""nashirudder-vehicles: simulated vehicles that follow orders of VDA 5050 over an MQTT broker, each at a speed of its own."""

import argparse
import asyncio
import json
import random
import re
import sys
from typing import IO, Any, Dict, List, Optional, Tuple

from . import vda5050
from .broker import Address, opened
from .vda5050 import BROKEN, OFFLINE, ONLINE, Message, Name
from .words import broker_at

USAGE = "nashirudder-vehicles [--broker HOST[:PORT]] [--site NAME] [--count N] [--speed A..B] [--seed N] [--log FILE]"
# Seconds between states of a vehicle to which nothing happens
EACH = 5.0


class Simulated:
    """A vehicle. It stands on the node `last`, and goes along the nodes of its base, each after the time that its speed takes."""

    def __init__(self, address: Address, site: str, name: Name, cell: int, speed: float, log: Optional[IO[str]] = None) -> None:
        self.site, self.name, self.speed, self._log = site, name, speed, log
        self.last, self.sequence, self.order_id, self.update = vda5050.node_id(cell), 0, "", 0
        self.nodes: List[Message] = []
        self.edges: List[Message] = []
        self.errors: List[Message] = []
        self.is_driving = False
        self._number, self._loop = 0, asyncio.get_running_loop()
        self._client = opened(address, f"vehicle-{site}-{name.serial}", (self._topic("connection"), self._connection(BROKEN)))
        self._client.on_connect, self._client.on_message = self._came, self._came_in
        self._client.connect_async(address.host, address.port, keepalive=15)
        self._client.loop_start()

    def _topic(self, kind: str) -> str:
        return self.name.topic(self.site, kind)

    def _header(self) -> Message:
        self._number += 1
        return vda5050.header(self._number, self.name)

    def _connection(self, state: str) -> Message:
        return {**self._header(), "connectionState": state}

    def _came(self, client: Any, _data: Any, _flags: Any, _code: int) -> None:
        client.subscribe([(self._topic("order"), 0), (self._topic("instantActions"), 0)])
        client.publish(self._topic("connection"), json.dumps(self._connection(ONLINE)), qos=1, retain=True)
        self._loop.call_soon_threadsafe(self.tell)

    def _came_in(self, _client: Any, _data: Any, message: Any) -> None:
        self._loop.call_soon_threadsafe(self.take if message.topic.endswith("/order") else self.act, message.payload)

    def tell(self) -> None:
        """Publishes its state."""
        self._client.publish(self._topic("state"), json.dumps({
            **self._header(), "orderId": self.order_id, "orderUpdateId": self.update, "lastNodeId": self.last,
            "lastNodeSequenceId": self.sequence, "driving": self.is_driving, "operatingMode": "AUTOMATIC",
            "nodeStates": [{key: it[key] for key in ("nodeId", "sequenceId", "released")} for it in self.nodes],
            "edgeStates": [{key: it[key] for key in ("edgeId", "sequenceId", "released")} for it in self.edges],
            "actionStates": [], "batteryState": {"batteryCharge": 80.0, "charging": False}, "errors": self.errors,
            "safetyState": {"eStop": "NONE", "fieldViolation": False}}), qos=0)

    def act(self, text: bytes) -> None:
        """Does what it is asked to do at once: it knows `stateRequest` and `factsheetRequest`."""
        asked = {it["actionType"] for it in json.loads(text)["actions"]}
        if "stateRequest" in asked:
            self.tell()
        if "factsheetRequest" in asked:
            self._client.publish(self._topic("factsheet"), json.dumps(self.factsheet()), qos=1, retain=True)

    def factsheet(self) -> Message:
        """What it is: a cell is a metre."""
        return {**self._header(), "typeSpecification": {
                    "seriesName": "simulated", "agvKinematic": "OMNI", "agvClass": "CARRIER", "maxLoadMass": 100.0, "localizationTypes": ["GRID"],
                    "navigationTypes": ["VIRTUAL_LINE_GUIDED"]},
                "physicalParameters": {"speedMin": 0.0, "speedMax": self.speed, "accelerationMax": 1.0, "decelerationMax": 1.0, "heightMax": 0.4,
                                       "width": 0.6, "length": 0.8},
                "protocolLimits": {}, "protocolFeatures": {}, "agvGeometry": {}, "loadSpecification": {}}

    def take(self, text: bytes) -> None:
        """Takes an order, or an update of the one that it has; refuses what does not begin where its base ends."""
        order = json.loads(text)
        if (order["orderId"], order["orderUpdateId"]) == (self.order_id, self.update):
            return self.tell()
        is_update = order["orderId"] == self.order_id
        first, base_end = order["nodes"][0], [it for it in self.nodes if it["released"]]
        end = (base_end[-1]["nodeId"], base_end[-1]["sequenceId"]) if base_end else (self.last, self.sequence)
        begins = (first["nodeId"], first["sequenceId"]) == end if is_update else first["nodeId"] == self.last and not base_end
        if not begins or is_update and order["orderUpdateId"] < self.update:
            self.errors = [{"errorType": "orderUpdateError" if is_update else "orderError", "errorLevel": "WARNING"}]
            return self.tell()
        self.errors = []
        if not is_update:
            self.sequence = first["sequenceId"]
        self.order_id, self.update = order["orderId"], order["orderUpdateId"]
        # what it has not reached of its base stays, the horizon is new
        self.nodes = base_end + order["nodes"][1:]
        self.edges = [it for it in self.edges if it["released"]] + order["edges"]
        self.tell()
        self._drive()

    def _drive(self) -> None:
        if not self.is_driving and self.nodes and self.nodes[0]["released"]:
            self.is_driving = True
            self._write("go", self.nodes[0])
            self._loop.call_later(1 / self.speed, self._reach)

    def _write(self, word: str, node: Message) -> None:
        if self._log is not None:
            self._log.write(f"{word} {self.name.serial} {node['nodeId'][1:]}\n")

    def _reach(self) -> None:
        node = self.nodes.pop(0)
        self._write("at", node)
        self.edges = [it for it in self.edges if it["sequenceId"] > node["sequenceId"]]
        self.last, self.sequence, self.is_driving = node["nodeId"], node["sequenceId"], False
        self._drive()
        self.tell()

    def close(self) -> None:
        """Says that it is offline, and goes."""
        if self._client.is_connected():
            self._client.publish(self._topic("connection"), json.dumps(self._connection(OFFLINE)), qos=1, retain=True).wait_for_publish(2)
        self._client.disconnect()
        self._client.loop_stop()


async def cells_at(address: Address, site: str) -> List[int]:
    """The cells of the site's robots, as the gateway says them once it is there."""
    loop = asyncio.get_running_loop()
    found: "asyncio.Future[List[int]]" = loop.create_future()

    def found_them(cells: List[int]) -> None:
        if not found.done():
            found.set_result(cells)

    def told(_client: Any, _data: Any, message: Any) -> None:
        how = json.loads(message.payload)
        if how["state"] == ONLINE and how["cells"]:
            loop.call_soon_threadsafe(found_them, how["cells"])

    client = opened(address, f"vehicles-{site}-{random.randrange(2**32)}")
    client.on_connect = lambda *_: client.subscribe(f"{site}/v2/site", 1)
    client.on_message = told
    client.connect_async(address.host, address.port)
    client.loop_start()
    try:
        return await found
    finally:
        client.disconnect()
        client.loop_stop()


def speeds(text: str) -> Tuple[float, float]:
    found = re.fullmatch(r"(\d+(?:\.\d+)?)(?:\.\.(\d+(?:\.\d+)?))?", text)
    if not found or not 0 < float(found[1]) <= float(found[2] or found[1]):
        raise argparse.ArgumentTypeError(f"{text!r} is no speed such as 4 or 4..12, in cells a second")
    return float(found[1]), float(found[2] or found[1])


async def drive(asked: argparse.Namespace) -> None:
    """Drives the vehicles until it is cancelled."""
    address, chance = Address(*asked.broker), random.Random(asked.seed)
    cells = await cells_at(address, asked.site)
    count = len(cells) if asked.count is None else min(asked.count, len(cells))
    all: Dict[int, Simulated] = {}
    for robot in range(count):
        all[robot] = Simulated(address, asked.site, Name("nashirudder", str(robot)), cells[robot], chance.uniform(*asked.speed), asked.log)
    print(f"{count} vehicles", flush=True)
    try:
        while True:
            await asyncio.sleep(EACH)
            for it in all.values():
                it.tell()
    finally:
        for it in all.values():
            it.close()


def main(given: Optional[List[str]] = None) -> int:
    words = argparse.ArgumentParser(prog="nashirudder-vehicles", usage=USAGE)
    words.add_argument("--broker", type=broker_at, default=("127.0.0.1", 1883), help="127.0.0.1:1883 if not given")
    words.add_argument("--site", default="site", help="the site's name, as the gateway has it")
    words.add_argument("--count", type=int, help="the first N robots; all if not given")
    words.add_argument("--speed", type=speeds, default=(4.0, 12.0), help="cells a second, one speed or two bounds (4..12)")
    words.add_argument("--seed", type=int)
    words.add_argument("--log", type=argparse.FileType("w", 1), metavar="FILE", help="gets `go R CELL` and `at R CELL`, as they happen")
    asked = words.parse_args(sys.argv[1:] if given is None else given)
    try:
        asyncio.run(drive(asked))
    except KeyboardInterrupt:
        pass
    return 0


if __name__ == "__main__":
    sys.exit(main())

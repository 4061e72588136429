"""The command line of the gateway."""

import argparse
import asyncio
import ipaddress
import logging
import pathlib
import re
import signal
import sys
from typing import List, Optional, cast

from aiohttp import web

from nashirudder.errors import FleetError

from . import clients
from .desk import Desk
from .door import Door
from .guard import Guard
from .seats import Seats
from .site import BadSite, Site, spread
from .vda5050 import Name
from .words import broker_at

USAGE = """nashirudder-gateway MAP (--count N | --robots CELLS) [WORD..]
       nashirudder-gateway token NAME [--operator]

Starts a fleet on the map, or lets the one in the folder go on, and serves it by HTTP, WebSocket and a page in a browser.
docs/GATEWAY.md has the rest."""
# what is wrong: the words or files, or the fleet
BAD_WORDS, BAD_FLEET = 2, 3


class Closed(asyncio.Protocol):
    """A connection beyond the limit."""

    def connection_made(self, transport: asyncio.BaseTransport) -> None:
        transport.abort()       # type: ignore[attr-defined]


def milliseconds(text: str) -> float:
    found = re.fullmatch(r"(\d+(?:\.\d+)?)(us|ms|s)", text)
    if not found:
        raise argparse.ArgumentTypeError(f"{text!r} is no time such as 20ms")
    return float(found[1]) * {"us": 0.001, "ms": 1.0, "s": 1000.0}[found[2]]


def cells(text: str) -> List[int]:
    if not re.fullmatch(r"\d+(,\d+)*", text):
        raise argparse.ArgumentTypeError(f"{text!r} is no list of cells such as 0,5,9")
    return [int(word) for word in text.split(",")]


def words_of(given: Optional[List[str]] = None) -> argparse.Namespace:
    words = argparse.ArgumentParser(prog="nashirudder-gateway", usage=USAGE)
    words.add_argument("map", type=pathlib.Path)
    robots = words.add_mutually_exclusive_group(required=True)
    robots.add_argument("--count", type=int, help="the number of robots, spread over the floor")
    robots.add_argument("--robots", type=cells, help="the robots' start cells, as 0,5,9")
    words.add_argument("--folder", type=pathlib.Path, default=pathlib.Path("gateway-data"),
                       help="has the chapters and the journal (gateway-data); a fleet that is there goes on")
    words.add_argument("--site", default="site", help="a name for the site")
    words.add_argument("--period", type=milliseconds, default=200.0, help="the time between two turns (200ms)")
    words.add_argument("--keep-every", type=milliseconds, default=60_000.0, help="a chapter ends so often (60s)")
    words.add_argument("--planner", choices=("plain", "turns"), default="plain", help="turns: errands to the ends of blind aisles arrive (plain)")
    words.add_argument("--bin", help="the program fleet, or its folder")
    words.add_argument("--host", default="127.0.0.1", help="the address to listen at")
    words.add_argument("--port", type=int, default=8080, help="0 takes a free one")
    words.add_argument("--name", action="append", default=[], help="a host name under which browsers reach it by a proxy")
    words.add_argument("--tokens", type=pathlib.Path, help="the file of tokens; without it only this machine is served")
    words.add_argument("--connections", type=int, default=2000, help="open at once at most (2000)")
    words.add_argument("--mqtt", type=broker_at, metavar="HOST[:PORT]", help="vehicles carry out the plan by VDA 5050, over this MQTT broker")
    words.add_argument("--mqtt-user", metavar="NAME", help="as whom; the password is in the environment, NASHIRUDDER_MQTT_PASSWORD")
    words.add_argument("--mqtt-ca", type=pathlib.Path, metavar="FILE", help="TLS: the certificate of whoever signed the broker's")
    words.add_argument("--vehicles", type=pathlib.Path, metavar="FILE", help="a line MANUFACTURER/SERIAL for each robot (nashirudder/0, ..)")
    words.add_argument("--clearance", choices=("arrived", "started"), default="arrived", help="when a cell is clear (arrived)")
    words.add_argument("--ahead", type=int, default=10, help="how many turns may be planned ahead of the vehicles (10)")
    words.add_argument("--keep-days", type=float, default=7.0, help="how long settled errands and their keys are kept (7)")
    return words.parse_args(given)


def is_loopback(host: str) -> bool:
    try:
        return host == "localhost" or ipaddress.ip_address(host).is_loopback
    except ValueError:
        return False


def names_in(path: Optional[pathlib.Path], count: int) -> List[Name]:
    """The vehicles' names, by robot."""
    if path is None:
        return [Name("nashirudder", str(robot)) for robot in range(count)]
    lines = path.read_text().split()
    if len(lines) != count or len(set(lines)) != count or not all(re.fullmatch(r"[A-Za-z0-9_.-]{1,64}/[A-Za-z0-9_.-]{1,64}", it) for it in lines):
        raise BadSite(f"{path} has no line MANUFACTURER/SERIAL for each of the {count} robots, each another")
    return [Name(*it.split("/")) for it in lines]


async def serve(asked: argparse.Namespace, who: clients.Clients) -> None:
    """Serves until SIGTERM or SIGINT."""
    robots = asked.robots if asked.robots is not None else spread(asked.map, asked.count)
    site = Site(asked.site, asked.map, robots, asked.folder, asked.period, asked.keep_every, asked.bin, asked.planner)
    seats = Seats(Guard(who, [*asked.name, *([] if is_loopback(asked.host) else [asked.host])]))
    broker, vehicles = None, None
    if asked.mqtt is not None:
        from . import vehicle_site          # needs paho-mqtt and the library for C

        vehicles, broker = vehicle_site.asked_for(site, asked, names_in(asked.vehicles, len(robots)))
        seats.tells_stands = True
    desk = Desk(site, seats.tell, asked.keep_days, vehicles)
    runner = web.AppRunner(Door(desk, seats.guard, seats).app(), access_log=None)
    await runner.setup()
    loop, server = asyncio.get_running_loop(), cast(web.Server, runner.server)

    def protocol() -> asyncio.Protocol:
        return server() if len(server.connections) < asked.connections else Closed()

    listening = await loop.create_server(protocol, asked.host, asked.port)
    running = asyncio.ensure_future(desk.run())
    if broker is not None:
        broker.start()
    over = asyncio.Event()
    for number in (signal.SIGTERM, signal.SIGINT):
        loop.add_signal_handler(number, over.set)
    host, port = listening.sockets[0].getsockname()[:2]
    print(f"http://{'[' + host + ']' if ':' in host else host}:{port}/", flush=True)
    try:
        await asyncio.wait((running, asyncio.ensure_future(over.wait())), return_when=asyncio.FIRST_COMPLETED)
    finally:
        listening.close()
        await desk.close()
        await runner.cleanup()
        if broker is not None:
            await loop.run_in_executor(None, broker.close)
        try:
            await running
        finally:
            desk.end()


def main(given: Optional[List[str]] = None) -> int:
    given = sys.argv[1:] if given is None else given
    if given[:1] == ["token"]:
        words = argparse.ArgumentParser(prog="nashirudder-gateway token")
        words.add_argument("name", type=lambda text: text if re.fullmatch(r"[A-Za-z0-9_-]{1,64}", text) else words.error("a name has letters, digits, _ and -"))
        words.add_argument("--operator", action="store_true")
        asked = words.parse_args(given[1:])
        print(clients.new_token(asked.name, asked.operator), end="")
        return 0
    asked = words_of(given)
    logging.basicConfig(level=logging.INFO, format="gateway: %(message)s")
    if asked.tokens is None and (asked.name or not is_loopback(asked.host)):
        print("gateway: without --tokens it listens at this machine's own address alone, 127.0.0.1, and takes no --name", file=sys.stderr)
        return BAD_WORDS
    try:
        who = clients.Clients() if asked.tokens is None else clients.read(asked.tokens)
        asyncio.run(serve(asked, who))
    except (BadSite, clients.BadTokens, OSError) as error:
        print(f"gateway: {error}", file=sys.stderr)
        return BAD_FLEET if isinstance(error, FleetError) else BAD_WORDS
    except FleetError as error:
        print(f"gateway: {error}", file=sys.stderr)
        return BAD_FLEET
    return 0

"""Turns at the pace of vehicles: one is made when they have room for a further step of their plan, and not before its time."""

import asyncio
import functools
import sqlite3
import time
from typing import TYPE_CHECKING

from nashirudder.errors import FleetError
from nashirudder.events import Moved
from nashirudder.stream import FleetStream

from .plan_log import Placement
from .vehicles import Vehicles

if TYPE_CHECKING:
    from .desk import Desk

# Seconds between looks at the vehicles, and that they may take for the rest of the plan when the gateway ends
LOOK_EVERY, SETTLE_SECONDS = 0.5, 60.0


async def drive(desk: "Desk", fleet: FleetStream, vehicles: Vehicles) -> None:
    """Makes turns until the gateway is to end, and is to be cancelled then. What a turn plans is on the disk before a vehicle is sent."""
    due = time.monotonic()
    while True:
        now = time.monotonic()
        vehicles.look(now)
        if desk.is_closing or not vehicles.has_room:
            desk.latest_turn = now              # it is the vehicles that take their time
            await vehicles.news(LOOK_EVERY)
        elif now < due:
            await asyncio.sleep(min(due - now, LOOK_EVERY))
        else:
            vehicles.is_planning = True
            try:
                await _turn(desk, fleet, vehicles)
            finally:
                vehicles.is_planning = False
            due = max(due + desk.site.period_ms / 1000, now)


async def _turn(desk: "Desk", fleet: FleetStream, vehicles: Vehicles) -> None:
    words = (await fleet.ask("tick"))[0]
    if words[0] == "tick-refused":
        if words[-1] != "chapter-full":
            raise FleetError(f"no turn can be made: {words[-1]}")
        await fleet.ask("chapter")
        return
    for event in fleet.at_hand():               # the arrivals of this turn
        desk.heard(event)
    tick, cells = int(words[1][:-1]), [int(word) for word in words[2:]]
    before, after = vehicles.log.placements[-1], vehicles.planned(tick, cells)
    while not await _is_written(desk, vehicles, after):
        await asyncio.sleep(1)
    _await_stops(desk, vehicles, after)
    desk.tick = tick
    vehicles.carry_out(before, after)
    show(desk, vehicles)


async def _is_written(desk: "Desk", vehicles: Vehicles, placement: Placement) -> bool:
    try:
        await desk.on_disk(vehicles.log.add, placement)
    except sqlite3.Error as error:
        desk.trouble = f"the plan cannot be written: {error}"
        return False
    if desk.trouble.startswith("the plan"):
        desk.trouble = ""
    return True


def _await_stops(desk: "Desk", vehicles: Vehicles, after: Placement) -> None:
    """The clients of errands that arrived in this turn are told when their vehicles really stand there."""
    for errand in desk.to_stand:
        vehicles.await_stop(errand.robot, after.sequences[errand.robot], functools.partial(desk.tell, "stands", errand))
    desk.to_stand.clear()


def show(desk: "Desk", vehicles: Vehicles) -> None:
    """Shows where the vehicles are."""
    desk.heard(Moved(desk.tick, vehicles.cells()))


async def settle(vehicles: Vehicles) -> None:
    """Waits until the vehicles have done what was planned, so that they stand where the fleet has their robots."""
    end = time.monotonic() + SETTLE_SECONDS
    while vehicles.is_set and (vehicles.is_planning or not vehicles.is_done) and time.monotonic() < end:
        vehicles.look(time.monotonic())
        await vehicles.news(LOOK_EVERY)
    vehicles.stop()

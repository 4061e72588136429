"""What is known of each errand when a fleet has started: what it told and the journal has not heard is told again."""

import logging
from typing import TYPE_CHECKING, List

from nashirudder.records import Session
from nashirudder.stream import FleetStream

from .errand import ACCEPTED, LOST, POSTED, WITHDRAWN, Errand
from .site import BadSite

if TYPE_CHECKING:
    from .desk import Desk

log = logging.getLogger("nashirudder_gateway")


async def recover(desk: "Desk", fleet: FleetStream) -> None:
    """The fleet says how many orders it has: what was posted after these was lost with the process that was to take it, and is posted again. What it told
    since the journal last heard it, it tells again. Raises BadSite if the journal is not of this fleet."""
    journal = desk.journal
    session = await fleet.session()
    errands = sorted(journal.open.values(), key=lambda it: (it.number is None, it.number, it.id))
    desk.next_number = session.orders + 1
    desk.tick, desk.robots.cells = fleet.begun.tick, list(fleet.begun.cells)
    desk.by_number = {it.number: it for it in errands if it.state == POSTED and it.number is not None and it.number <= session.orders}
    desk.by_accepted = {it.accepted: it for it in errands if it.state == ACCEPTED and it.accepted is not None}
    again = [it for it in errands if it.state == POSTED and it.number not in desk.by_number]
    desk.robots.clear()
    for errand in desk.by_accepted.values():
        desk.robots.add(errand, desk.tick)
    desk.open_of.clear()
    desk.open_of.update(it.owner for it in errands)
    is_whole = _begin_to_hear(desk, session)
    for event in await fleet.since(journal.heard or 0):
        desk.heard(event)
    await _compare_open(desk, fleet, is_whole)
    for robot in sorted(journal.shut):
        await fleet.ask(f"shut {robot}")
    desk.robots.shut |= journal.shut
    _post_again(desk, again)


def _begin_to_hear(desk: "Desk", session: Session) -> bool:
    """Sets the notice after which the fleet is to tell. Returns whether all of those that the journal did not hear can be told again."""
    journal = desk.journal
    heard = session.told_from - 1 if journal.heard is None else journal.heard
    if heard > session.notices:
        raise BadSite(f"the journal in {desk.site.folder} has heard notice {heard}, and the fleet has told {session.notices}: its chapters are older than the journal, or "
                      "another fleet's. Put back those that belong to it, or begin with a new folder")
    if heard + 1 < session.told_from:
        log.error("notices %d to %d cannot be told again: chapters are missing", heard + 1, session.told_from - 1)
    is_whole = heard + 1 >= session.told_from
    journal.heard = max(heard, session.told_from - 1)
    return is_whole


async def _compare_open(desk: "Desk", fleet: FleetStream, is_whole: bool) -> None:
    """An errand that the fleet has and the journal does not is nobody's. One that the fleet does not have any more was withdrawn, since its arrival would have
    been told; or it is lost, if not all can be told again."""
    listed = await fleet.open_errands()
    for it in listed:
        errand = desk.by_accepted.get(it.number)
        if errand is None:
            errand = desk.journal.add("", None, it.robot, it.cell)
            errand.state, errand.accepted = ACCEPTED, it.number
            desk.by_accepted[it.number] = errand
            desk.robots.add(errand, desk.tick)
            desk.open_of[""] += 1
            desk.counts["gateway_adopted_total"] += 1
        elif (errand.robot, errand.cell) != (it.robot, it.cell):
            raise BadSite(f"the journal in {desk.site.folder} is not of this fleet: its errand {it.number} goes elsewhere than the fleet's")
    for event in fleet.at_hand():           # turns were made since the fleet started
        desk.heard(event)
    there = {it.number for it in listed}
    for errand in [it for it in desk.by_accepted.values() if it.accepted not in there]:
        desk.withdrawn(errand, WITHDRAWN if is_whole else LOST)
        desk.counts["gateway_lost_total"] += not is_whole
    for errand in desk.by_number.values():
        desk.withdrawn(errand, LOST)
        desk.counts["gateway_lost_total"] += 1
    desk.by_number.clear()


def _post_again(desk: "Desk", errands: List[Errand]) -> None:
    """In the order in which they were posted."""
    for errand in errands:
        errand.number = None
        desk.outbox.append(errand)
        desk.counts["gateway_posted_again_total"] += 1
    desk.wake()

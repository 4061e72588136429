"""A site whose plan is carried out by vehicles: they, the log of their plan, and the broker."""

import argparse
import os
import re
from typing import List, Tuple

from .broker import Address, Broker
from .plan_log import PlanLog
from .site import BadSite, Site
from .vda5050 import OFFLINE, ONLINE, Message, Name
from .vehicles import Vehicles


def opened(site: Site, names: List[Name], address: Address, clearance: str = "arrived", ahead: int = 10) -> Tuple[Vehicles, Broker]:
    """The vehicles, and the broker over which they speak, which is not started yet."""
    if not re.fullmatch(r"[A-Za-z0-9_-]{1,64}", site.name):
        raise BadSite("with --mqtt the site's name has letters, digits, _ and -: it begins each topic")
    site.has_vehicles = True
    shape = len(site.rows[0]), len(site.rows)
    vehicles = Vehicles(site.name, shape, names, PlanLog(str(site.folder / "plan.db")), clearance, ahead)

    def how_it_is() -> Message:
        return {"state": ONLINE, "order": vehicles.order_id, "width": shape[0], "height": shape[1], "rows": site.rows, "cells": vehicles.cells()}

    broker = Broker(address, site.name, vehicles.heard, how_it_is, {"state": OFFLINE}, vehicles.ask)
    vehicles.send, vehicles.on_begin = broker.send, broker.tell
    return vehicles, broker


def asked_for(site: Site, asked: argparse.Namespace, names: List[Name]) -> Tuple[Vehicles, Broker]:
    """What the command line asks for."""
    host, port = asked.mqtt
    address = Address(host, port, asked.mqtt_user, os.environ.get("NASHIRUDDER_MQTT_PASSWORD"), None if asked.mqtt_ca is None else str(asked.mqtt_ca))
    return opened(site, names, address, asked.clearance, asked.ahead)

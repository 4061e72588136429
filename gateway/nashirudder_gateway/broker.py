"""The gateway's connection to an MQTT broker, for asyncio."""

import asyncio
import json
import logging
import ssl
from dataclasses import dataclass
from typing import Any, Callable, Optional, Tuple

from paho.mqtt import client as mqtt

from .vda5050 import Message

log = logging.getLogger("nashirudder_gateway")

# Longer messages are left; seconds between attempts to come back
MOST_BYTES, LEAST_PAUSE, MOST_PAUSE = 262_144, 1, 30


@dataclass(frozen=True)
class Address:
    """Where the broker is, as whom the gateway speaks to it, and the certificate of whoever signed the broker's, for TLS."""

    host: str
    port: int = 1883
    user: Optional[str] = None
    password: Optional[str] = None
    authority: Optional[str] = None


def opened(address: Address, name: str, will: Optional[Tuple[str, Message]] = None) -> mqtt.Client:
    """A client of the broker that is not connected yet. If it is lost the broker tells its last will, retained."""
    client = mqtt.Client(client_id=name, clean_session=True)
    if address.user is not None:
        client.username_pw_set(address.user, address.password)
    if address.authority is not None:
        client.tls_set(ca_certs=address.authority, tls_version=ssl.PROTOCOL_TLS_CLIENT)
    if will is not None:
        client.will_set(will[0], json.dumps(will[1]), qos=1, retain=True)
    client.reconnect_delay_set(LEAST_PAUSE, MOST_PAUSE)
    return client


class Broker:
    """Messages of vehicles go to `heard(topic, text)` in the event loop's thread. `online` and `offline` make the message that says how the
    site is: it is retained, so whoever comes later sees it. `reached` is called whenever the broker was reached."""

    def __init__(self, address: Address, site: str, heard: Callable[[str, bytes], None], online: Callable[[], Message], offline: Message,
                 reached: Callable[[], None]) -> None:
        self.address, self.site, self.is_connected = address, site, False
        self._heard, self._online, self._offline, self._reached = heard, online, offline, reached
        self._loop = asyncio.get_running_loop()
        self._client = opened(address, f"nashirudder-{site}", (self.topic, offline))
        self._client.on_connect, self._client.on_disconnect, self._client.on_message = self._came, self._went, self._came_in

    @property
    def topic(self) -> str:
        """Where it says how the site is."""
        return f"{self.site}/v2/site"

    def start(self) -> None:
        """Connects, and comes back by itself whenever the broker was away."""
        self._client.connect_async(self.address.host, self.address.port, keepalive=15)
        self._client.loop_start()

    def send(self, topic: str, message: Message) -> None:
        """Publishes a message, once at most: what is lost is sent again by whoever waits for it."""
        self._client.publish(topic, json.dumps(message, separators=(",", ":")), qos=0)

    def tell(self) -> None:
        """Says anew how the site is, if the broker is there."""
        if self.is_connected:
            self._client.publish(self.topic, json.dumps(self._online()), qos=1, retain=True)

    def close(self) -> None:
        """Says that the site is offline, and goes."""
        if self.is_connected:
            self._client.publish(self.topic, json.dumps(self._offline), qos=1, retain=True).wait_for_publish(5)
        self._client.disconnect()
        self._client.loop_stop()

    # ---- in the broker's thread

    def _call(self, what: Callable[..., None], *words: Any) -> None:
        if not self._loop.is_closed():
            self._loop.call_soon_threadsafe(what, *words)

    def _came(self, client: mqtt.Client, _data: Any, _flags: Any, code: int) -> None:
        if code == 0:
            client.subscribe([(f"{self.site}/v2/+/+/state", 0), (f"{self.site}/v2/+/+/connection", 1), (f"{self.site}/v2/+/+/factsheet", 1)])
        self._call(self._stands, code == 0, mqtt.connack_string(code))

    def _went(self, _client: mqtt.Client, _data: Any, code: int) -> None:
        self._call(self._stands, False, mqtt.error_string(code))

    def _came_in(self, _client: mqtt.Client, _data: Any, message: mqtt.MQTTMessage) -> None:
        if len(message.payload) <= MOST_BYTES:
            self._call(self._heard, message.topic, message.payload)

    # ---- in the event loop's thread

    def _stands(self, is_connected: bool, why: str) -> None:
        self.is_connected = is_connected
        log.info("broker %s:%d: %s", self.address.host, self.address.port, why)
        if is_connected:
            self.tell()
            self._reached()

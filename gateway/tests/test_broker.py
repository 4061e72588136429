"""The configuration and the rules in gateway/examples, tried with mosquitto: TLS, names and passwords, and who may say and hear what."""

import asyncio
import pathlib
import shutil
import ssl
import subprocess
import unittest
import warnings

from kit import HERE, Case
from kit_broker import MOSQUITTO, Broker
from nashirudder_gateway.broker import Address, opened
from nashirudder_gateway.simulated import Simulated
from nashirudder_gateway.vda5050 import Name

EXAMPLES = HERE.parent / "examples"
WORDS = {"gateway": "secret", "0": "zero", "1": "one"}


def certificate(folder, name):
    """A certificate for 127.0.0.1 that signed itself, and its key."""
    subprocess.run(["openssl", "req", "-x509", "-newkey", "rsa:2048", "-nodes", "-days", "2", "-subj", "/CN=127.0.0.1", "-addext", "subjectAltName=IP:127.0.0.1",
                    "-keyout", folder / f"{name}.key", "-out", folder / f"{name}.pem"], check=True, capture_output=True)
    return str(folder / f"{name}.pem")


class Guarded(Broker):
    """mosquitto as the examples have it, but for the places of files, the port, and the site's name."""

    def __init__(self, folder):
        self.authority = certificate(folder, "broker")
        shutil.copy(folder / "broker.pem", folder / "ca.pem")
        for name, word in WORDS.items():
            subprocess.run(["mosquitto_passwd", *["-c"] * (name == "gateway"), "-b", folder / "passwords", name, word], check=True, capture_output=True)
        (folder / "acl").write_text((EXAMPLES / "acl").read_text().replace("site/v2", "ring/v2"))
        self.folder = folder
        super().__init__(folder)

    def start(self):
        text = (EXAMPLES / "mosquitto.conf").read_text().replace("/etc/mosquitto", str(self.folder)).replace("listener 8883", f"listener {self.port} 127.0.0.1")
        # the folder of the test is root's alone
        self.config.write_text(text + "user root\npersistence_location " + str(self.folder) + "/\n")
        super().start()

    def as_user(self, name, word=None, authority=None):
        return Address("127.0.0.1", self.port, name, word or WORDS[name], authority or self.authority)


def is_there(name):
    return shutil.which(name) is not None


@unittest.skipUnless(pathlib.Path(MOSQUITTO).exists() and is_there("mosquitto_passwd") and is_there("openssl"), "Debian's mosquitto and openssl are not there")
class Rules(Case):
    def setUp(self):
        super().setUp()
        self.broker = Guarded(self.folder)
        self.addCleanup(self.broker.stop)

    def client(self, name, *topics):
        """A client of the broker, and what it hears: (topic, text)."""
        heard, ready = [], []
        client = opened(self.broker.as_user(name), f"test-{name}")
        client.on_connect = lambda *_: client.subscribe([(topic, 1) for topic in topics])
        client.on_subscribe = lambda *_: ready.append(True)
        client.on_message = lambda _client, _data, message: heard.append((message.topic, message.payload.decode()))
        client.connect("127.0.0.1", self.broker.port)
        client.loop_start()
        self.addCleanup(client.loop_stop)
        self.addCleanup(client.disconnect)
        return client, heard, ready

    async def until(self, is_so):
        for _ in range(12_000):
            if is_so():
                return
            await asyncio.sleep(0.01)
        raise AssertionError("it did not come")

    async def test_the_brokers_rules(self):
        gateway, told, first = self.client("gateway", "ring/v2/+/+/state", "ring/v2/+/+/connection", "ring/v2/+/+/factsheet")
        vehicle, heard, second = self.client("0", "#")
        await self.until(lambda: first and second)
        own = [f"ring/v2/maker/0/{kind}" for kind in ("state", "connection", "factsheet")]
        for topic in ("ring/v2/maker/1/state", "ring/v2/maker/1/connection", "ring/v2/maker/1/factsheet", "ring/v2/maker/0/order", "ring/v2/maker/1/order",
                      "ring/v2/maker/0/instantActions", "ring/v2/site", *own):
            vehicle.publish(topic, "from 0", qos=1)
        await self.until(lambda: len(told) >= len(own))
        self.assertEqual(told, [(topic, "from 0") for topic in own])        # the others would have come before these
        for topic in ("ring/v2/maker/1/order", "ring/v2/maker/1/instantActions", "ring/v2/site", "ring/v2/maker/0/instantActions", "ring/v2/maker/0/order"):
            gateway.publish(topic, "from the gateway", qos=1)
        await self.until(lambda: len(heard) >= 3)
        self.assertEqual(heard, [(topic, "from the gateway") for topic in ("ring/v2/site", "ring/v2/maker/0/instantActions", "ring/v2/maker/0/order")])

    async def test_the_brokers_certificate_and_passwords(self):
        with warnings.catch_warnings(), self.assertRaises(ssl.SSLError):
            warnings.simplefilter("ignore", ResourceWarning)        # paho leaves its socket to be collected
            opened(self.broker.as_user("gateway", authority=certificate(self.folder, "other")), "test").connect("127.0.0.1", self.broker.port)
        codes = []
        for word in ("wrong", "secret"):
            client = opened(self.broker.as_user("gateway", word), "test")
            client.on_connect = lambda _client, _data, _flags, code: codes.append(code)
            client.connect("127.0.0.1", self.broker.port)
            while not codes or codes[-1] == 5 and word == "secret":
                client.loop(0.1)
            client.disconnect()
        self.assertEqual(codes, [5, 0])

    async def test_a_site_under_these_rules(self):
        async with self.gateway(broker=self.broker.as_user("gateway")) as gateway:
            for robot, cell in ((0, 0), (1, 3)):
                self.addCleanup(Simulated(self.broker.as_user(str(robot)), "ring", Name("nashirudder", str(robot)), cell, 40.0).close)
            await gateway.until(lambda: gateway.desk.vehicles.is_set)
            status, errand, _ = await gateway.post(0, 18)
            await gateway.until(lambda: gateway.desk.journal.find(errand["id"]).state == "arrived" and gateway.desk.vehicles.all[0].cell == 18)
            self.assertEqual([it["speed"] for it in (await gateway.ask("GET", "/vehicles"))[1]["vehicles"]], [40.0, 40.0])


if __name__ == "__main__":
    unittest.main()

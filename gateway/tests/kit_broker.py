"""What the tests of vehicles share: mosquitto, and what it handed on."""

import json
import shutil
import socket
import subprocess
import time

from nashirudder_gateway.broker import Address
from nashirudder_gateway.vda5050 import cell_of

MOSQUITTO = shutil.which("mosquitto") or "/usr/sbin/mosquitto"


def free_port():
    with socket.socket() as it:
        it.bind(("127.0.0.1", 0))
        return it.getsockname()[1]


class Broker:
    """mosquitto, for whoever is on this machine."""

    def __init__(self, folder):
        self.port = free_port()
        self.config = folder / "mosquitto.conf"
        self.config.write_text(f"listener {self.port} 127.0.0.1\nallow_anonymous true\n")
        self.address = Address("127.0.0.1", self.port)
        self.start()

    def start(self):
        self.process = subprocess.Popen([MOSQUITTO, "-c", str(self.config)], stdout=subprocess.DEVNULL, stderr=subprocess.DEVNULL)
        for _ in range(6000):
            with socket.socket() as it:
                if it.connect_ex(("127.0.0.1", self.port)) == 0:
                    return
            time.sleep(0.01)
        raise AssertionError("mosquitto did not start")

    def stop(self):
        self.process.terminate()
        self.process.wait()


class Log:
    """What the broker handed on, in its order."""

    def __init__(self, broker, path):
        self.path = path
        with path.open("w") as out:
            self.process = subprocess.Popen(["mosquitto_sub", "-h", "127.0.0.1", "-p", str(broker.port), "-v", "-t", "ring/v2/#"],
                                            stdout=out, stderr=subprocess.DEVNULL)

    def messages(self):
        """Each message with its kind and its vehicle."""
        for line in self.path.read_text().rpartition("\n")[0].splitlines():      # a last line may not be whole yet
            topic, _, text = line.partition(" ")
            words = topic.split("/")
            if len(words) == 5:
                yield words[4], int(words[3]), json.loads(text)

    def close(self):
        self.process.terminate()
        self.process.wait()


def faults(messages, starts):
    """What the messages break: a vehicle on a node that it was not released for, or sent to a cell where another stands or goes."""
    at, bound, released, found = dict(enumerate(starts)), {}, {robot: set() for robot in range(len(starts))}, []
    for kind, robot, told in messages:
        if kind == "order":
            for node in told["nodes"]:
                if not node["released"]:
                    continue
                cell = cell_of(node["nodeId"])
                others = {it for other, it in [*at.items(), *bound.items()] if other != robot}
                if cell in others:
                    found.append(f"{robot} was sent to {cell}, where another is")
                released[robot].add((node["sequenceId"], cell))
                bound[robot] = cell
        elif kind == "state" and told["orderId"]:
            cell = cell_of(told["lastNodeId"])
            if (told["lastNodeSequenceId"], cell) not in released[robot]:
                found.append(f"{robot} is at {cell}, and was not released for it")
            at[robot] = cell
    return found

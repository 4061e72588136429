"""What the tests share of fleets whose program is killed, and which go on by `reconnect`."""

import json
import sys

from kept_chapters import PROGRAM, KeptChaptersTest
from nashirudder import Ended, LiveFleet
from nashirudder.orders import Ledger

# Runs the fleet, hands on as many lines as the first line of a file says, which is taken away, and kills it: at once, or once there is a further line.
# Where the file has no line it is the fleet.
CUT = """#!{python} -IS
import os, signal, subprocess, sys
with open({cuts!r}, "r+") as file:
    first, _, rest = file.read().partition("\\n")
    file.seek(0), file.truncate(), file.write(rest)
if not first:
    os.execv({program!r}, [{program!r}, *sys.argv[1:]])
when, count = first.split()
fleet, told = subprocess.Popen([{program!r}, *sys.argv[1:]], stdout=subprocess.PIPE), 0
while not (when == "after" and told == int(count)):
    line = fleet.stdout.readline()
    if not line:
        sys.exit(fleet.wait())
    if when == "within" and told == int(count):
        break
    os.write(1, line)
    told += 1
fleet.kill()
fleet.wait()
os.kill(os.getpid(), signal.SIGKILL)
"""


class Counted(Ledger):
    """What was taken in."""

    def __init__(self):
        super().__init__()
        self.verdicts, self.arrivals = [], []

    def judged(self, order, verdict, number):
        self.verdicts.append((order, verdict))
        super().judged(order, verdict, number)

    def arrived(self, arrival):
        self.arrivals.append(arrival)
        super().arrived(arrival)


class KilledFleetsTest(KeptChaptersTest):
    """Fleets whose program is killed, and which are cut at a line that they tell."""

    def setUp(self):
        super().setUp()
        self.cuts, self.cut = self.path / "cuts", self.path / "cut"
        self.cut.write_text(CUT.format(python=sys.executable, cuts=str(self.cuts), program=PROGRAM))
        self.cut.chmod(0o755)

    def live(self, built=PROGRAM, **words):
        fleet = LiveFleet(self.map, [0, 8], traces=self.traces, **{"resume": True, "journal": True, "timeout": 60, **words}, built=built)
        self.addCleanup(lambda: fleet._program.is_closed or fleet._program.process.kill())
        fleet._said._ledger = Counted()
        return fleet

    def kill(self, fleet):
        fleet._program.process.kill()
        fleet._program.process.wait()

    def again(self, fleet, call):
        """Makes a call, and has the fleet go on and makes the call again as often as the program is killed."""
        while True:
            try:
                return call()
            except Ended:
                self.reconnect(fleet)

    def reconnect(self, fleet):
        self.kills += 1
        while True:
            try:
                return fleet.reconnect()
            except Ended:
                self.kills += 1

    def taken(self):
        """By client, the orders and verdicts of all chapters."""
        taken = {0: [], 1: []}
        for number in range(len(self.chapters())):
            for entry in json.loads((self.traces / f"chapter-{number}.json").read_text())["entries"]:
                if entry[0] == "take":
                    taken[entry[1]].append(entry[2:])
        return taken

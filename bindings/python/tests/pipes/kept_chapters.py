"""What the tests share of fleets that go on from a chapter that was kept."""

import importlib.util
import os
import re
import pathlib
import subprocess
import tempfile
import unittest

from nashirudder import finding

PROGRAM = finding.program(os.environ.get("FLEET"))
TOP = pathlib.Path(__file__).resolve().parents[4]

RING = "type octile\nheight 3\nwidth 3\nmap\n...\n.@.\n...\n"
OPEN = "type octile\nheight 4\nwidth 5\nmap\n.....\n..@..\n.@...\n.....\n"


def model(word):
    """The independent model in tools/WORD."""
    found = importlib.util.spec_from_file_location(f"{word}_model", TOP / "tools" / word / "model.py")
    module = importlib.util.module_from_spec(found)
    found.loader.exec_module(module)
    return module


START = re.compile(r"(fleet: begins anew\n|fleet: goes on from chapter \d+ at tick \d+\n)?((?s:.*))")


class KeptChaptersTest(unittest.TestCase):
    """A map, and a folder of chapters."""

    def setUp(self):
        folder = tempfile.TemporaryDirectory()
        self.addCleanup(folder.cleanup)
        self.path = pathlib.Path(folder.name)
        self.traces = self.path / "traces"
        self.traces.mkdir()
        self.map = self.path / "site.map"
        self.map.write_text(RING)

    def run_program(self, words, lines):
        """What the program says to lines: output, complaint, status. The line that says how a fleet starts is kept in
        `start`.
        """
        said = subprocess.run([PROGRAM, *words], input=lines.encode(), capture_output=True)
        self.start, complaint = START.fullmatch(said.stderr.decode()).groups()
        return said.stdout.decode(), complaint, said.returncode

    def head(self, script):
        """The words for the file of header lines, if there is one."""
        if script is None:
            return []
        (self.path / "head").write_text(script)
        return [self.path / "head"]

    def chapters(self):
        return sorted(name for name in os.listdir(self.traces) if name != "fleet.lock")

    def refused(self, told, status, *words, **heads):
        """The fleet does not go on, says why, and leaves the folder as it is."""
        before = {name: (self.traces / name).read_bytes() for name in self.chapters()}
        output, complaint, ended = self.on("look\n", *words, **heads)
        self.assertIsNone(self.start)
        # (where the reader of JSON stopped is by its own account)
        complaint = re.sub(r": its reader stopped at line [1-9]\d*, column [1-9]\d*\n", "\n", complaint)
        self.assertEqual((output, complaint, ended), ("", f"fleet: file {told}\n", status))
        self.assertEqual({name: (self.traces / name).read_bytes() for name in self.chapters()}, before)

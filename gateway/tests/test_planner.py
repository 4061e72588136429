"""The planner `turns`: robots come out of blind aisles for one that is to go in."""

import contextlib
import io

from kit import BIN, Case
from nashirudder_gateway import main
from nashirudder_gateway.site import Site

# A loop of sixteen cells, and two blind aisles, each with its station at its end
AISLES = "type octile\nheight 7\nwidth 7\nmap\n@@@.@@@\n@@@.@@@\n.......\n.@@@@@.\n.......\n@.@@@@@\n@.@@@@@\n"
ABOVE, BELOW = 3, 43


class Planner(Case):
    def aisles(self, planner):
        """A gateway whose robots 0 and 2 stand at the ends of the aisles."""
        gateway = self.gateway()
        path = self.folder / "aisles.map"
        path.write_text(AISLES)
        gateway.site = Site("aisles", path, [ABOVE, 14, BELOW], self.folder / "data", 5.0, 1000.0, BIN, planner)
        return gateway

    async def test_an_errand_to_each_blind_end_arrives(self):
        async with self.aisles("turns") as it:
            self.assertEqual((await it.ask("GET", "/site"))[1]["planner"], "turns")
            ids = []
            for robot, cell in ((1, ABOVE), (1, BELOW), (0, BELOW), (2, ABOVE), (0, ABOVE), (2, BELOW)):
                status, told, _ = await it.post(robot, cell)
                self.assertEqual(status, 201)
                ids.append(told["id"])
            await it.until(lambda: all(it.desk.journal.find(id).state == "arrived" for id in ids))

    async def test_without_turns_a_robot_that_stands_there_keeps_it(self):
        """By hand: robot 0 is pushed into its end, and cannot come out past robot 1, which waits for it."""
        async with self.aisles("plain") as it:
            await it.post(1, ABOVE)
            await it.until(lambda: it.desk.robots.cells[1] == 10)
            tick = it.desk.tick
            await it.until(lambda: it.desk.tick > tick + 100)
            self.assertEqual((it.desk.robots.cells[:2], it.desk.journal.find(1).state), ([ABOVE, 10], "accepted"))

    def test_the_word(self):
        words = ["a.map", "--count", "1"]
        self.assertEqual([main.words_of(words + more).planner for more in ([], ["--planner", "plain"], ["--planner", "turns"])], ["plain", "plain", "turns"])
        with self.assertRaises(SystemExit) as caught, contextlib.redirect_stderr(io.StringIO()):
            main.words_of([*words, "--planner", "fast"])
        self.assertEqual(caught.exception.code, 2)

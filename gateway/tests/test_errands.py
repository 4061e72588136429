"""Errands over HTTP: each status, and what stands after it."""

import asyncio
import json
import unittest.mock

from kit import ELSEWHERE, NO_CELL, WALL, Case, client
from nashirudder_gateway import door
from nashirudder_gateway.clients import Clients


class Errands(Case):
    async def test_an_errand_is_accepted_and_arrives(self):
        async with self.gateway() as it:
            status, told, headers = await it.post(0, 18)
            self.assertEqual((status, told["state"], told["robot"], told["cell"]), (201, "accepted", 0, 18))
            self.assertEqual(headers["Location"], f"/errands/{told['id']}")
            await it.until(lambda: it.desk.journal.find(told["id"]).state == "arrived")
            status, robot, _ = await it.ask("GET", "/robots/0")
            self.assertEqual((status, robot["cell"], robot["state"], robot["goal"]), (200, 18, "free", None))
            last = await it.errand(told["id"])
            self.assertTrue(last["kept"])
            self.assertGreaterEqual(last["tick"], 3)        # three steps from cell 0

    async def test_a_key_is_one_errand(self):
        async with self.gateway() as it:
            _, first, _ = await it.post(0, 18, "k")
            status, again, _ = await it.post(0, 18, "k")
            self.assertEqual((status, again["id"]), (200, first["id"]))
            status, told, _ = await it.post(0, 21, "k")
            self.assertEqual((status, told["error"]), (409, "key-reused"))
            _, other, _ = await it.post(0, 18, "l")
            self.assertNotEqual(other["id"], first["id"])

    async def test_posts_of_one_key_at_once_are_one_errand(self):
        async with self.gateway() as it:
            told = await asyncio.gather(*(it.post(0, 18, "k") for _ in range(20)))
            self.assertEqual({answer["id"] for _, answer, _ in told}, {1})
            self.assertEqual([status for status, _, _ in told].count(201), 1)

    async def test_refusals_of_the_fleet(self):
        async with self.gateway() as it:
            for robot, cell, status, error in [(2, 0, 404, "no-robot"), (0, WALL, 422, "blocked"), (0, NO_CELL, 422, "no-cell"),
                                               (0, ELSEWHERE, 422, "unreachable")]:
                with self.subTest(error):
                    got, told, _ = await it.post(robot, cell)
                    self.assertEqual((got, told["error"]), (status, error))
                    self.assertNotIn("gateway", told["detail"])
            _, told, _ = await it.ask("GET", "/errands?state=closed")
            self.assertEqual([one["reason"] for one in told["errands"]], ["no-robot", "blocked", "no-cell", "unreachable"])

    async def test_a_refusal_frees_its_key(self):
        async with self.gateway(period=3_600_000.0, queue=1) as it:
            self.assertEqual((await it.post(0, 18, "a"))[0], 201)
            status, told, headers = await it.post(0, 21, "b")
            self.assertEqual((status, told["error"], headers["Retry-After"]), (429, "queue-full", "1"))
            status, told, _ = await it.post(1, 21, "b")
            self.assertEqual((status, told["state"]), (201, "accepted"))

    async def test_bodies_that_are_at_fault(self):
        async with self.gateway() as it:
            for told in [{}, {"robot": 0}, {"robot": "0", "cell": 1}, {"robot": -1, "cell": 1}, {"robot": 0, "cell": 2**32}, {"robot": True, "cell": 1},
                         {"robot": 0, "cell": 1.0}, {"robot": 0, "cell": 1, "more": 1}, [], None, "0 1\npost 0 go 0 2"]:
                with self.subTest(str(told)):
                    status, answer, _ = await it.ask("POST", "/errands", data=json.dumps(told),
                                                     headers={"Content-Type": "application/json"})
                    self.assertEqual((status, answer["error"]), (422, "body"))
            for data, kind, status in [("{", "application/json", 422), (b"\xff", "application/json", 422), ("[" * 4000, "application/json", 422),
                                       ('{"robot":0,"cell":1}', "text/plain", 415), ("x" * 5000, "application/json", 413)]:
                got, _, _ = await it.ask("POST", "/errands", data=data, headers={"Content-Type": kind})
                self.assertEqual(got, status, data[:20])
            for key in ["", "a b", "x" * 129, "\xe4"]:
                status, told, _ = await it.ask("POST", "/errands", {"robot": 0, "cell": 1}, headers={"Idempotency-Key": key})
                self.assertEqual((status, told["error"]), (422, "key"))
            self.assertEqual((await it.ask("GET", "/errands"))[1]["errands"], [])

    async def test_withdrawing(self):
        async with self.gateway(period=3_600_000.0) as it:
            _, first, _ = await it.post(0, 18)
            _, second, _ = await it.post(0, 21)
            status, told, _ = await it.ask("DELETE", f"/errands/{first['id']}")
            self.assertEqual((status, told["error"]), (409, "too-late"))
            for _ in range(2):
                status, told, _ = await it.ask("DELETE", f"/errands/{second['id']}")
                self.assertEqual((status, told["state"]), (200, "withdrawn"))
            self.assertEqual((await it.ask("DELETE", "/errands/77"))[0], 404)
            self.assertEqual((await it.ask("GET", "/robots/0"))[1]["errands"], 1)

    async def test_lists_by_pages(self):
        async with self.gateway(period=3_600_000.0) as it:
            for cell in (18, 21, 3, 1, 2):
                await it.post(0, cell)
            _, page, _ = await it.ask("GET", "/errands?limit=2")
            self.assertEqual(([one["cell"] for one in page["errands"]], page["next"]), ([18, 21], 2))
            _, page, _ = await it.ask("GET", "/errands?limit=3&after=2")
            self.assertEqual(([one["cell"] for one in page["errands"]], page["next"]), ([3, 1, 2], None))
            for query in ("limit=0", "limit=1001", "after=-1", "after=x", "state=old"):
                self.assertEqual((await it.ask("GET", "/errands?" + query))[0], 422)

    async def test_quotas(self):
        slow = Clients([client("alice", "a", open=2), client("bob", "b", rate=1)])
        async with self.gateway(slow, period=3_600_000.0) as it:
            self.assertEqual([(await it.post(0, cell, token="a"))[0] for cell in (18, 21)], [201, 201])
            status, told, headers = await it.post(0, 1, token="a")
            self.assertEqual((status, told["error"], headers["Retry-After"]), (429, "too-many-open", "1"))
            told = await asyncio.gather(*(it.post(1, 18, token="b") for _ in range(100)))
            self.assertIn((429, "rate"), [(status, answer.get("error")) for status, answer, _ in told])

    async def test_an_operator_shuts_a_robot_and_ends_a_chapter(self):
        async with self.gateway() as it:
            self.assertEqual((await it.ask("POST", "/robots/1/shut"))[0], 200)
            status, told, _ = await it.ask("POST", "/robots/1/shut")
            self.assertEqual((status, told["error"]), (409, "already-shut"))
            self.assertEqual((await it.ask("POST", "/robots/2/shut"))[0], 404)
            status, told, _ = await it.post(1, 18)
            self.assertEqual((status, told["error"]), (409, "robot-shut"))
            self.assertEqual((await it.ask("GET", "/robots"))[1]["robots"][1]["state"], "shut")
            self.assertEqual((await it.ask("POST", "/chapter"))[0], 200)

    @unittest.mock.patch("nashirudder_gateway.desk.LOOK_EVERY", 3600.0)      # a look would write, and say that the disk is not stuck
    async def test_site_figures_and_health(self):
        async with self.gateway() as it:
            _, told, _ = await it.ask("GET", "/site")
            self.assertEqual((told["width"], told["height"], told["rows"][1], told["robots"]), (6, 4, ".@@.@@", 2))
            self.assertEqual([(await it.ask("GET", path))[0] for path in ("/health", "/ready")], [200, 200])
            await it.post(0, WALL)
            self.assertIn('gateway_verdicts_total{verdict="blocked"} 1\n', (await it.ask("GET", "/metrics"))[1])
            it.desk.busy_since = 1.0                    # the disk has not answered for long
            self.assertEqual((await it.ask("GET", "/health"))[0], 503)
            it.desk.busy_since = 0.0
            self.assertEqual((await it.ask("GET", "/health"))[0], 200)
            it.desk.is_ready = False
            status, told, headers = await it.post(0, 18)
            self.assertEqual((status, told["error"], headers["Retry-After"]), (503, "not-ready", "1"))
            self.assertEqual((await it.ask("GET", "/ready"))[0], 503)

    async def test_turns_that_do_not_come_are_no_health(self):
        async with self.gateway(period=3_600_000.0) as it:
            self.assertEqual((await it.ask("GET", "/health"))[0], 200)
            it.desk.latest_turn -= 3600 + door.LATE + 1
            self.assertEqual((await it.ask("GET", "/health"))[0], 503)

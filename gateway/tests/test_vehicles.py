"""Vehicles by VDA 5050: over a real broker (mosquitto), heard by a client that is not ours (mosquitto_sub)."""

import asyncio
import json
import pathlib
import shutil
import sqlite3
import time
import unittest
from unittest import mock

from kit import Case
from kit_broker import MOSQUITTO, Broker, Log, faults
from nashirudder_gateway.simulated import Simulated
from nashirudder_gateway.vda5050 import Name, cell_of

@unittest.skipUnless(pathlib.Path(MOSQUITTO).exists() and shutil.which("mosquitto_sub"), "Debian's mosquitto and mosquitto-clients are not there")
class Vehicles(Case):
    def setUp(self):
        super().setUp()
        self.broker = Broker(self.folder)
        self.addCleanup(self.broker.stop)
        self.log = Log(self.broker, self.folder / "messages")
        self.addCleanup(self.log.close)

    def vehicles(self, cells=(0, 3), speed=40.0):
        driven = [Simulated(self.broker.address, "ring", Name("nashirudder", str(robot)), cell, speed) for robot, cell in enumerate(cells)]
        for it in driven:
            self.addCleanup(it.close)
        return driven

    def no_fault(self):
        time.sleep(0.2)
        self.assertEqual(faults(self.log.messages(), [0, 3]), [])

    async def posted(self, gateway, robot, cell, key=None):
        status, errand, _ = await gateway.post(robot, cell, key)
        self.assertIn(status, (200, 201, 202))
        return errand["id"]

    async def test_an_errand_is_carried_out(self):
        async with self.gateway(broker=self.broker.address) as gateway:
            driven = self.vehicles()
            await gateway.until(lambda: gateway.desk.vehicles.is_set)
            async with gateway.socket() as socket:
                await socket.send_json({"robot": 0, "cell": 18, "key": "a"})
                kinds = []
                while "stands" not in kinds:
                    told = await socket.receive_json(timeout=120)
                    kinds.append(told["kind"])
                self.assertEqual(kinds, ["verdict", "arrival", "stands"])
            _, told, _ = await gateway.ask("GET", "/vehicles")
            self.assertTrue(told["is_set"])
            self.assertEqual([it["vehicle"] for it in told["vehicles"]], ["nashirudder/0", "nashirudder/1"])
            self.assertEqual([it["trouble"] for it in told["vehicles"]], [None, None])
            await gateway.until(lambda: 18 in {cell_of(told["lastNodeId"]) for kind, robot, told in self.log.messages() if kind == "state" and robot == 0})
        self.assertEqual([cell_of(it.last) for it in driven], gateway.desk.vehicles.log.placements[-1].cells)
        self.no_fault()

    async def test_a_vehicle_that_is_not_there_is_waited_for(self):
        async with self.gateway(broker=self.broker.address) as gateway:
            self.vehicles(cells=(0,))
            errand = await self.posted(gateway, 0, 1)
            await gateway.until(lambda: gateway.desk.what_is_wrong == "the vehicle of robot 1 is not to be sent on: no-connection")
            self.assertEqual((await gateway.ask("GET", "/health"))[1]["trouble"], gateway.desk.what_is_wrong)
            self.assertEqual((await gateway.errand(errand))["state"], "accepted")
            second = Simulated(self.broker.address, "ring", Name("nashirudder", "1"), 3, 40.0)
            self.addCleanup(second.close)
            await gateway.until(lambda: gateway.desk.journal.find(errand).state == "arrived")
        self.no_fault()

    async def test_a_vehicle_on_another_cell_is_named(self):
        async with self.gateway(broker=self.broker.address) as gateway:
            self.vehicles(cells=(0, 2))
            await gateway.until(lambda: gateway.desk.vehicles.trouble == "the vehicle of robot 1 is not to be sent on: elsewhere")
            self.assertFalse(gateway.desk.vehicles.is_set)

    async def test_a_vehicle_that_goes_elsewhere_is_sent_no_further(self):
        async with self.gateway(broker=self.broker.address) as gateway:
            driven = self.vehicles()
            await gateway.until(lambda: gateway.desk.vehicles.is_set and driven[1].order_id)
            driven[1].last, driven[1].sequence = "c2", driven[1].sequence + 2
            driven[1].tell()
            await gateway.until(lambda: gateway.desk.vehicles.all[1].trouble == "elsewhere")
            await self.posted(gateway, 1, 12)
            await asyncio.sleep(0.3)
            self.assertEqual(driven[1].nodes, [])
            driven[1].last, driven[1].sequence = "c3", driven[1].sequence - 2
            driven[1].tell()
            await gateway.until(lambda: gateway.desk.vehicles.all[1].cell == 12)

    async def test_a_vehicle_that_forgets_its_order_gets_it_again(self):
        async with self.gateway(broker=self.broker.address) as gateway:
            driven = self.vehicles(speed=10.0)
            await gateway.until(lambda: gateway.desk.vehicles.is_set)
            errand = await self.posted(gateway, 0, 18)
            await gateway.until(lambda: gateway.desk.vehicles.reached[0] > 0)
            driven[0].close()
            # it was at one node of its way, or came to the next one before it was started again
            for cell in (cell_of(driven[0].last), cell_of((driven[0].nodes or [{"nodeId": driven[0].last}])[0]["nodeId"])):
                again = Simulated(self.broker.address, "ring", Name("nashirudder", "0"), cell, 40.0)
                self.addCleanup(again.close)
                await gateway.until(lambda: again.order_id)
                again.close()
            last = Simulated(self.broker.address, "ring", Name("nashirudder", "0"), cell_of(again.last), 40.0)
            self.addCleanup(last.close)
            await gateway.until(lambda: gateway.desk.vehicles.is_done and gateway.desk.journal.find(errand).state == "arrived")

    async def test_a_vehicle_that_forgets_its_order_elsewhere_is_named(self):
        async with self.gateway(broker=self.broker.address) as gateway:
            driven = self.vehicles()
            await gateway.until(lambda: gateway.desk.vehicles.is_set and driven[1].order_id)
            driven[1].close()
            again = Simulated(self.broker.address, "ring", Name("nashirudder", "1"), 12, 40.0)
            self.addCleanup(again.close)
            await gateway.until(lambda: gateway.desk.vehicles.all[1].trouble == "elsewhere")
            self.assertEqual(again.order_id, "")

    async def test_a_gateway_that_ends_leaves_vehicles_where_the_next_finds_them(self):
        driven = None
        for turn in range(2):
            async with self.gateway(broker=self.broker.address) as gateway:
                driven = driven or self.vehicles()
                await gateway.until(lambda: gateway.desk.vehicles.is_set)
                for cell in (18, 12, 3):
                    await self.posted(gateway, turn, cell, f"{turn}.{cell}")
                await asyncio.sleep(0.15)
            self.assertEqual([cell_of(it.last) for it in driven], gateway.desk.vehicles.log.placements[-1].cells)
        self.no_fault()

    async def test_after_a_kill_vehicles_go_on_with_the_plan(self):
        driven, errands = None, {}
        for turn in range(3):
            gateway = self.gateway(broker=self.broker.address, keep_every=300.0)
            await gateway.__aenter__()
            driven = driven or self.vehicles()
            await gateway.until(lambda: gateway.desk.vehicles.is_set)
            for robot, cell in ((0, 18), (1, 12), (0, 3), (1, 1)):
                errands[f"{turn}.{robot}.{cell}"] = await self.posted(gateway, robot, cell, f"{turn}.{robot}.{cell}")
            await asyncio.sleep(0.5)
            if turn < 2:
                await self.kill(gateway)
        await gateway.until(lambda: all(gateway.desk.journal.find(it).state == "arrived" for it in errands.values()))
        await gateway.__aexit__()
        self.no_fault()

    async def kill(self, gateway):
        """Ends it as a kill would: the fleet is killed, nothing is settled or written any more."""
        desk, fleet = gateway.desk, gateway.desk.fleet
        desk.is_closing = True
        fleet._transport.kill()
        await gateway.running
        await gateway.session.close()
        await gateway.server.close()
        desk.end()
        gateway.broker.close()

    async def test_the_broker_comes_back(self):
        async with self.gateway(broker=self.broker.address) as gateway:
            self.vehicles()
            await gateway.until(lambda: gateway.desk.vehicles.is_set)
            errand = await self.posted(gateway, 0, 18)
            await asyncio.sleep(0.1)
            self.broker.stop()
            await asyncio.sleep(0.2)
            self.broker.start()
            await gateway.until(lambda: gateway.desk.vehicles.reached[0] and gateway.desk.vehicles.is_done
                                and gateway.desk.journal.find(errand).state == "arrived")

    async def test_a_plan_that_cannot_be_written_is_not_carried_out(self):
        async with self.gateway(broker=self.broker.address) as gateway:
            driven, vehicles = self.vehicles(), gateway.desk.vehicles
            await gateway.until(lambda: vehicles.is_set)
            add, vehicles.log.add = vehicles.log.add, mock.Mock(side_effect=sqlite3.OperationalError("disk I/O error"))
            errand = await self.posted(gateway, 0, 18)
            await gateway.until(lambda: gateway.desk.trouble == "the plan cannot be written: disk I/O error")
            self.assertEqual((driven[0].last, driven[0].nodes), ("c0", []))
            vehicles.log.add = add
            await gateway.until(lambda: gateway.desk.journal.find(errand).state == "arrived" and gateway.desk.trouble == "")

    async def test_factsheets_are_read_and_checked(self):
        async with self.gateway(broker=self.broker.address) as gateway:
            driven = self.vehicles()

            async def shown():
                told = (await gateway.ask("GET", "/vehicles"))[1]["vehicles"]
                return [[it[word] for word in ("speed", "length", "width", "factsheet_fault")] for it in told]

            await gateway.until(lambda: all(it.body is not None for it in gateway.desk.vehicles.all))
            self.assertEqual(await shown(), [[40.0, 0.8, 0.6, None]] * 2)
            good = driven[1].factsheet()
            body, kind = good["physicalParameters"], good["typeSpecification"]
            for count, fault in enumerate((
                    {"physicalParameters": {**body, "speedMax": 0}}, {"physicalParameters": {**body, "speedMin": 41.0}}, {"physicalParameters": {**body, "width": float("nan")}},
                    {"physicalParameters": {**body, "length": 1e7}}, {"physicalParameters": {}}, {"typeSpecification": {**kind, "agvClass": "BOAT"}},
                    {"typeSpecification": None}, {"serialNumber": "0"}, {"protocolLimits": 7}), 1):
                driven[1]._client.publish("ring/v2/nashirudder/1/factsheet", json.dumps({**good, **fault}))
                await gateway.until(lambda: gateway.desk.vehicles.bad_messages == count)
                told = await shown()
                self.assertEqual((told[0], told[1][:3]), ([40.0, 0.8, 0.6, None], [40.0, 0.8, 0.6]))
                self.assertIn("another vehicle" if "serialNumber" in fault else next(iter(fault)), told[1][3])
                self.assertIn("gateway_vehicle_factsheets_bad 1\n", (await gateway.ask("GET", "/metrics"))[1])
                gateway.desk.vehicles.all[1].factsheet_fault = None
            driven[1]._client.publish("ring/v2/nashirudder/1/factsheet", "[]")
            await gateway.until(lambda: gateway.desk.vehicles.all[1].factsheet_fault)
            body["speedMax"] = 2.5
            driven[1]._client.publish("ring/v2/nashirudder/1/factsheet", json.dumps(good))
            await gateway.until(lambda: gateway.desk.vehicles.all[1].body.speedMax == 2.5)
            self.assertEqual((await shown())[1], [2.5, 0.8, 0.6, None])
            self.assertTrue(gateway.desk.vehicles.is_set)

    async def test_messages_that_are_at_fault_are_left(self):
        async with self.gateway(broker=self.broker.address) as gateway:
            driven = self.vehicles()
            await gateway.until(lambda: gateway.desk.vehicles.is_set)
            for topic, text in (("ring/v2/nashirudder/0/state", "{}"), ("ring/v2/nashirudder/0/state", "\xff"), ("ring/v2/nashirudder/9/state", "{}"),
                                ("ring/v2/nashirudder/1/connection", json.dumps(driven[0]._connection("ONLINE")))):
                driven[0]._client.publish(topic, text)
            await gateway.until(lambda: gateway.desk.vehicles.bad_messages == 4)
            self.assertTrue(gateway.desk.vehicles.is_set)


if __name__ == "__main__":
    unittest.main()

"""The stream of verdicts, arrivals and ticks over a WebSocket."""

import asyncio
import socket as tcp

import aiohttp
from kit import WALL, Case, client, two_clients
from nashirudder_gateway import seats
from nashirudder_gateway.clients import Clients


async def told(it, *kinds):
    """The next message of one of these kinds."""
    while True:
        message = await it.receive_json(timeout=120)
        if message["kind"] in kinds:
            return message


class Sockets(Case):
    async def test_a_post_has_its_verdict_and_its_arrival(self):
        async with self.gateway() as it, it.socket() as socket:
            await socket.send_json({"robot": 0, "cell": 18, "key": "k"})
            verdict = await told(socket, "verdict", "refusal")
            self.assertEqual((verdict["status"], verdict["errand"]["state"], verdict["errand"]["key"]), (201, "accepted", "k"))
            arrival = await told(socket, "arrival")
            self.assertEqual((arrival["errand"]["id"], arrival["errand"]["state"]), (verdict["errand"]["id"], "arrived"))
            await socket.send_json({"robot": 0, "cell": 18, "key": "k"})
            again = await told(socket, "verdict")
            self.assertEqual((again["status"], again["errand"]["id"]), (200, verdict["errand"]["id"]))
            self.assertEqual((await it.post(0, 18, "k"))[1]["id"], verdict["errand"]["id"])

    async def test_a_socket_that_comes_again_with_its_keys(self):
        async with self.gateway(period=300.0) as it:
            async with it.socket() as first:
                await first.send_json({"robot": 0, "cell": 18, "key": "k"})
                verdict = await told(first, "verdict")
            async with it.socket() as second:
                await second.send_json({"robot": 0, "cell": 18, "key": "k"})
                self.assertEqual((await told(second, "verdict"))["errand"]["id"], verdict["errand"]["id"])
                self.assertEqual((await told(second, "arrival"))["errand"]["id"], verdict["errand"]["id"])

    async def test_what_is_not_taken_is_told_to_its_sender(self):
        async with self.gateway() as it, it.socket() as socket, it.socket("?all=1") as other, it.socket() as third:
            for sent, status, error in [("{", 422, "not-json"), ('{"robot":-1,"cell":0}', 422, "body"), ('{"robot":0,"cell":1,"key":"a\\n"}', 422, "body"),
                                        ('{"robot":0,"cell":1,"key":7}', 422, "body")]:
                await socket.send_str(sent)
                answer = await socket.receive_json(timeout=120)
                self.assertEqual((answer["kind"], answer["status"], answer["error"]), ("refusal", status, error), sent)
            await socket.send_json({"robot": 0, "cell": WALL, "key": "w"})
            verdict = await told(socket, "verdict")
            self.assertEqual((verdict["status"], verdict["errand"]["reason"]), (422, "blocked"))
            self.assertEqual(await told(other, "verdict", "refusal"), verdict)
            await third.send_json({"robot": 0, "cell": WALL, "key": "3"})         # the first thing that it hears of
            self.assertEqual((await told(third, "verdict", "refusal"))["errand"]["key"], "3")

    async def test_ticks_are_thinned_and_only_told_where_wished(self):
        async with self.gateway(period=5.0) as it, it.socket("?ticks=0") as each, it.socket("?ticks=60000&all=1") as few, it.socket("?all=1") as none:
            ticks = [(await told(each, "tick"))["tick"] for _ in range(20)]
            self.assertEqual(ticks, sorted(set(ticks)))
            self.assertEqual((await told(few, "tick"))["cells"], [0, 3])
            await it.post(0, WALL)
            # the next one is a minute away, so the verdict is next, as where no ticks were asked for
            for socket in (few, none):
                self.assertEqual((await socket.receive_json(timeout=120))["kind"], "verdict")
            for query in ("?ticks=-1", "?ticks=60001", "?ticks=x"):
                self.assertEqual((await it.ask("GET", "/stream" + query))[0], 422)
            self.assertEqual((await it.ask("GET", "/stream"))[0], 400)

    async def test_a_client_hears_its_own_alone(self):
        async with self.gateway(two_clients()) as it:
            async with it.socket("?all=1", token="a") as alice, it.socket("?all=1", token="b") as bob, it.socket("?all=1", token="o") as ops:
                await it.post(0, WALL, token="a")
                await it.post(1, WALL, token="b")
                for socket, robots in ((alice, [0]), (bob, [1]), (ops, [0, 1])):
                    self.assertEqual([(await told(socket, "verdict"))["errand"]["robot"] for _ in robots], robots)

    async def test_tokens_of_sockets(self):
        async with self.gateway(two_clients()) as it:
            for first in ('{"token":"x"}', '{"token":["a"]}', "[]", "a", '{"robot":0,"cell":1}'):
                async with it.session.ws_connect(it.server.make_url("/stream")) as socket:
                    await socket.send_str(first)
                    message = await socket.receive(timeout=120)
                    self.assertEqual(message.data, seats.BAD_TOKEN, first)
            async with it.session.ws_connect(it.server.make_url("/stream"), headers={"Authorization": "Bearer a"}) as socket:
                self.assertEqual((await socket.receive_json(timeout=120))["client"], "alice")
            self.assertEqual((await it.ask("GET", "/stream", token="x", headers={
                "Connection": "Upgrade", "Upgrade": "websocket", "Sec-WebSocket-Version": "13", "Sec-WebSocket-Key": "AAAAAAAAAAAAAAAAAAAAAA=="}))[0], 401)

    async def test_as_many_sockets_as_a_client_may_have(self):
        async with self.gateway(Clients([client("alice", "a", sockets=1)])) as it:
            async with it.socket(token="a"):
                async with it.session.ws_connect(it.server.make_url("/stream")) as second:
                    await second.send_json({"token": "a"})
                    self.assertEqual((await second.receive(timeout=120)).data, seats.TRY_AGAIN_LATER)
            await it.until(lambda: not len(it.seats))
            async with it.socket(token="a"):
                pass

    async def test_a_gateway_that_ends_says_so(self):
        async with self.gateway() as it, it.socket() as one:
            await it.seats.close()
            self.assertEqual((await one.receive(timeout=120)).type, aiohttp.WSMsgType.CLOSE)
            await it.until(lambda: not len(it.seats))

    async def test_a_slow_reader_is_dropped(self):
        async with self.gateway(queue=1024) as it:
            host, port = it.server.host, it.server.port
            reader = tcp.socket()
            self.addCleanup(reader.close)
            reader.setsockopt(tcp.SOL_SOCKET, tcp.SO_RCVBUF, 4096)
            reader.setblocking(False)
            await asyncio.get_running_loop().sock_connect(reader, (host, port))
            reader.send(f"GET /stream?all=1 HTTP/1.1\r\nHost: {host}:{port}\r\nUpgrade: websocket\r\nConnection: Upgrade\r\n"
                        "Sec-WebSocket-Version: 13\r\nSec-WebSocket-Key: AAAAAAAAAAAAAAAAAAAAAA==\r\n\r\n".encode())
            await it.until(lambda: len(it.seats) == 1)
            _, errand, _ = await it.post(0, 18)
            told = it.desk.journal.find(errand["id"])
            for count in range(200_000):                # more than the system keeps for a reader
                it.seats.tell("verdict", told)
                if it.seats.dropped:
                    break
                if count % 200 == 0:
                    await asyncio.sleep(0)
            await it.until(lambda: not len(it.seats))
            self.assertEqual(it.seats.dropped, 1)

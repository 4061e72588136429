"""Each entry of the threat list of docs/GATEWAY.md that is not in another test."""

import asyncio
import contextlib
import hmac
import io
import re
import socket
import sqlite3
import sys
import subprocess
import unittest.mock

from kit import BIN, HERE, RING, Case, client, two_clients
from nashirudder_gateway import clients, main
from nashirudder_gateway.clients import BadTokens, Client, Clients


class Threats(Case):
    async def test_requests_without_a_token_of_a_client(self):
        async with self.gateway(two_clients()) as it:
            for token in (None, "", "x", "a ", "A"):
                for method, path in [("GET", "/errands"), ("GET", "/robots"), ("GET", "/site"), ("GET", "/metrics"), ("POST", "/chapter"), ("DELETE", "/errands/1")]:
                    if token != "a ":
                        status, _, headers = await it.ask(method, path, token=token)
                        self.assertEqual((status, headers["WWW-Authenticate"]), (401, "Bearer"), (token, path))
            self.assertEqual((await it.post(0, 18, token="x"))[0], 401)
            for path in ("/", "/page.js", "/page.css", "/openapi.json", "/health", "/ready"):
                self.assertEqual((await it.ask("GET", path))[0], 200)

    async def test_errands_of_another_client(self):
        async with self.gateway(two_clients(), period=3_600_000.0) as it:
            _, mine, _ = await it.post(0, 18, "k", token="a")
            _, second, _ = await it.post(0, 21, token="a")
            for method in ("GET", "DELETE"):
                status, told, _ = await it.ask(method, f"/errands/{second['id']}", token="b")
                missing = await it.ask(method, "/errands/99", token="b")
                self.assertEqual((status, told), missing[:2])
            self.assertEqual((await it.ask("GET", "/errands", token="b"))[1]["errands"], [])
            status, other, _ = await it.post(1, 21, "k", token="b")        # a key is its client's own
            self.assertEqual(status, 201)
            self.assertNotEqual(other["id"], mine["id"])
            self.assertEqual(len((await it.ask("GET", "/errands", token="o"))[1]["errands"]), 3)

    async def test_what_operators_alone_may(self):
        async with self.gateway(two_clients()) as it:
            for path in ("/chapter", "/robots/0/shut"):
                status, told, _ = await it.ask("POST", path, token="a")
                self.assertEqual((status, told["error"]), (403, "operator"))
            self.assertEqual((await it.ask("POST", "/chapter", token="o"))[0], 200)

    async def test_a_page_from_elsewhere(self):
        async with self.gateway() as it:
            own = f"127.0.0.1:{it.server.port}"
            for host, origin, status, error in [
                    ("evil.example", None, 403, "host"), (f"evil.example:{it.server.port}", None, 403, "host"), (own, "http://evil.example", 403, "origin"),
                    (own, "null", 403, "origin"), (own, "http://127.0.0.1:1", 403, "origin"), (own, f"http://{own}", 200, None), (own, None, 200, None),
                    ("localhost", "https://localhost", 200, None)]:
                for path in ("/robots", "/stream"):
                    headers = {"Host": host, **({"Origin": origin} if origin else {})}
                    got, told, _ = await it.ask("GET", path, headers=headers)
                    if path == "/robots" or error:
                        self.assertEqual((got, told.get("error")), (status, error), headers)
            self.assertIn("default-src 'none'", (await it.ask("GET", "/"))[2]["Content-Security-Policy"])

    async def test_a_token_is_compared_in_constant_time_with_each(self):
        who, compared = two_clients(), []
        with unittest.mock.patch.object(hmac, "compare_digest", lambda one, other: compared.append(other) or one == other):
            self.assertEqual(who.of("a").name, "alice")
            self.assertIsNone(who.of("x"))
        self.assertEqual(len(compared), 6)

    async def test_the_disk_has_no_token(self):
        async with self.gateway(two_clients()) as it:
            await it.post(0, 18, "k", token="a")
        rows = sqlite3.connect(self.folder / "data" / "journal.db").execute("select owner, key from errands").fetchall()
        self.assertEqual(rows, [("alice", "k")])

    def test_it_listens_nowhere_else_without_tokens(self):
        for words in (["--host", "0.0.0.0"], ["--host", "::"], ["--host", "192.0.2.1"], ["--host", "example.org"], ["--name", "fleet.example"]):
            with contextlib.redirect_stderr(io.StringIO()) as said:
                self.assertEqual(main.main(["ring.map", "--count", "1", *words]), main.BAD_WORDS)
            self.assertIn("without --tokens", said.getvalue())

    async def test_connections_beyond_the_limit(self):
        path = self.folder / "ring.map"
        path.write_text(RING)
        words = [sys.executable, "-m", "nashirudder_gateway", str(path), "--count", "2", "--folder", str(self.folder / "data"), "--port", "0",
                 "--connections", "3", *(["--bin", BIN] if BIN else [])]
        process = subprocess.Popen(words, stdout=subprocess.PIPE, stderr=subprocess.DEVNULL, text=True,
                                   env={"PYTHONPATH": f"{HERE.parent}:{HERE.parents[1]}/bindings/python", "PATH": "/usr/bin:/bin"})
        try:
            port = int(process.stdout.readline().rstrip("/\n").rpartition(":")[2])
            held = [socket.create_connection(("127.0.0.1", port)) for _ in range(3)]
            answers = []
            for one in held:
                one.sendall(b"GET /health HTTP/1.1\r\nHost: localhost\r\n\r\n")
                answers.append(one.recv(12))
            self.assertEqual(answers, [b"HTTP/1.1 200"] * 3)
            with socket.create_connection(("127.0.0.1", port)) as extra, self.assertRaises(OSError):
                extra.sendall(b"GET /health HTTP/1.1\r\nHost: localhost\r\n\r\n")
                if extra.recv(12) == b"":
                    raise ConnectionResetError
        finally:
            process.terminate()
            self.assertEqual(process.wait(300), 0)
            process.stdout.close()
            for one in held:
                one.close()

    async def test_a_body_that_does_not_come(self):
        with unittest.mock.patch("nashirudder_gateway.guard.BODY_SECONDS", 0.05):
            async with self.gateway() as it:
                reader, writer = await asyncio.open_connection(it.server.host, it.server.port)
                writer.write(b"POST /errands HTTP/1.1\r\nHost: localhost\r\nContent-Type: application/json\r\nContent-Length: 30\r\n\r\n{")
                self.assertIn(b" 422 ", await asyncio.wait_for(reader.readline(), 120))
                writer.close()


    def test_each_entry_of_the_list_has_a_test(self):
        text = (HERE.parents[1] / "docs" / "GATEWAY.md").read_text().split("## Threats\n")[1].split("\n## ")[0]
        rows = [line.split(" | ") for line in text.splitlines() if line.startswith("| ") and "Test in" not in line]
        there = set(re.findall(r"def (test_\w+)", "".join(path.read_text() for path in HERE.glob("test_*.py"))))
        self.assertGreater(len(rows), 10)
        for threat, _, tests in rows:
            named = re.findall(r"`(test_\w+)`", tests)
            self.assertTrue(named and set(named) <= there, (threat, set(named) - there))


class Tokens(Case):
    def read(self, text):
        path = self.folder / "tokens.toml"
        path.write_text(text)
        return clients.read(path)

    def test_a_new_token_is_that_clients(self):
        one, two = clients.new_token("alice"), clients.new_token("ops", is_operator=True)
        who = self.read(one + "open = 5\n" + two)
        tokens = [text.splitlines()[0].removeprefix("# token: ") for text in (one, two)]
        self.assertEqual([(who.of(it).name, who.of(it).is_operator, who.of(it).open) for it in tokens], [("alice", False, 5), ("ops", True, 1000)])
        self.assertNotEqual(*tokens)

    def test_files_that_are_at_fault(self):
        good = "0" * 64
        for text in ("", "x", "[user.a]\nsha256='" + good + "'", "[client.a]\n", "[client.a]\nsha256='00'", "client=1",
                     f"[client.a]\nsha256='{good}'\nopen=0", f"[client.a]\nsha256='{good}'\nwide=1", f"[client.a]\nsha256='{good}'\nopen=true",
                     f"[client.a]\nsha256='{good}'\n[client.b]\nsha256='{good}'", f"[client.a]\nsha256='{good}'\n[operator.a]\nsha256='{'1' * 64}'"):
            with self.assertRaises(BadTokens, msg=text):
                self.read(text)

    def test_the_rate(self):
        one = Client("a", b"", rate=2)
        self.assertEqual([one.wait(100.0), one.wait(100.0)], [0.0, 0.0])
        self.assertEqual(one.wait(100.0), 0.5)
        self.assertEqual([one.wait(100.5), one.wait(100.5)], [0.0, 0.5])
        self.assertEqual([one.wait(200.0) for _ in range(3)], [0.0, 0.0, 0.5])

    def test_without_a_file_everybody_is_anyone(self):
        self.assertTrue(Clients().of("").is_operator)
        self.assertIsNone(Clients([client("a", "t")]).of(""))

"""The page in headless Chromium: a click on a robot and one on a cell send it there, and a lost connection comes back."""

import asyncio
import base64
import os
import pathlib
import shutil
import sys
import unittest

from kit import HERE, Case, two_clients

sys.path.append(str(HERE.parent.parent / "tools" / "browser"))
from chromium import Chromium

PICTURES = os.environ.get("NASHIRUDDER_PICTURES")


@unittest.skipIf(shutil.which("chromium") is None, "chromium is not installed")
class Page(Case):
    @classmethod
    def setUpClass(cls):
        cls.chromium = cls.enterClassContext(Chromium())

    async def asyncSetUp(self):
        self.chromium.complaints.clear()
        self.addAsyncCleanup(self.send, "Page.navigate", url="about:blank")

    async def send(self, method, **words):
        return await asyncio.to_thread(lambda: self.chromium.send(method, **words))

    async def value(self, script):
        return (await self.send("Runtime.evaluate", expression=script, returnByValue=True))["result"].get("value")

    async def until(self, script, seconds=120):
        for _ in range(seconds * 20):
            if await self.value(script):
                return
            await asyncio.sleep(0.05)
        raise AssertionError(f"it did not come: {script}: {await self.value('document.body.innerText')}")

    async def click(self, cell, width=6):
        x, y = await self.value(f"[{cell} % {width} * size + size / 2 + $('map').getBoundingClientRect().left,"
                                f" Math.floor({cell} / {width}) * size + size / 2 + $('map').getBoundingClientRect().top]")
        for kind in ("mousePressed", "mouseReleased"):
            await self.send("Input.dispatchMouseEvent", type=kind, x=x, y=y, button="left", clickCount=1)

    async def picture(self, name):
        if PICTURES:
            data = (await self.send("Page.captureScreenshot", format="png"))["data"]
            (pathlib.Path(PICTURES) / f"{name}.png").write_bytes(base64.b64decode(data))

    async def test_two_clicks_send_a_robot_and_a_lost_connection_comes_back(self):
        async with self.gateway() as it:
            await self.send("Page.navigate", url=str(it.server.make_url("/")))
            await self.until("document.body.dataset.state === 'live' && cells.length")
            await self.click(0)
            await self.until("document.body.dataset.chosen === '0'")
            await self.click(18)
            await it.until(lambda: it.desk.journal.find(1) is not None and it.desk.journal.find(1).state == "arrived")
            self.assertEqual((it.desk.journal.find(1).robot, it.desk.journal.find(1).cell), (0, 18))
            await self.until("$('log').innerText.includes('Robot 0 arrived at 0, 3') && cells[0] === 18")
            await self.until("Math.hypot(from[0][0] - .5, from[0][1] - 3.5) < .1")      # it stands still
            await self.click(18)
            await self.click(7)                 # a wall
            await self.until("$('hint').innerText.includes('blocked')")
            for seat in it.seats._all:
                seat._transport.abort()
            await self.until("lost > 0 || document.body.dataset.state === 'lost'")
            await self.until("document.body.dataset.state === 'live' && socket.readyState === 1")
            self.assertEqual(self.chromium.complaints, [])

    async def test_a_token_is_asked_for(self):
        async with self.gateway(two_clients()) as it:
            await self.send("Page.navigate", url=str(it.server.make_url("/")))
            await self.until("document.body.dataset.state === 'token' && !$('entry').hidden")
            await self.value("$('token').value = 'a'; $('entry').requestSubmit()")
            await self.until("document.body.dataset.state === 'live' && cells.length")

"""Opens a page in headless Chromium, measures how long that takes, and keeps pictures of it; or prints it.

usage: /usr/bin/python3 bench/page.py PAGE [FOLDER]
       /usr/bin/python3 bench/page.py --print PAGE PDF

Opens a page of `tools/abi-report` or `tools/abi-release` three times, each time in a new browser, and prints the seconds from the call
that opens it to its event `load`, and to the paint of the next frame. FOLDER gets pictures at two widths, light and dark: the top of the
page, the page with the filter set, and its end.
"""

from __future__ import annotations

import asyncio
import base64
import contextlib
import itertools
import json
import subprocess
import sys
import tempfile
import time
from pathlib import Path
from typing import Any, AsyncIterator, Optional

from tornado.websocket import WebSocketClientConnection, websocket_connect

_RUNS = 3
# How many tenths of a second the browser may take to start, and how many bytes one answer with a part of a PDF has.
_STARTS_IN = 3000
_PIECE = 1 << 20
_BROWSER = ["chromium", "--headless", "--no-sandbox", "--disable-gpu", "--no-first-run", "--remote-debugging-port=0",
            "--window-size=1400,900", "about:blank"]
# After two frames the layout has been painted.
_PAINTED = "new Promise(done => requestAnimationFrame(() => requestAnimationFrame(() => done(true))))"
_ROWS = "document.querySelectorAll('main tr').length"
# Widths and heights: a desktop's and a phone's.
_SIZES = ((1400, 900), (390, 844))
_NARROW = 600
# Types words into the filter.
_FILTER = """(() => { const field = document.querySelector('input[type=search]');
    if (field) { field.value = %s; field.dispatchEvent(new Event('input')); } })()"""


class Browser:
    """A page of a browser, controlled by the protocol of its developer tools."""

    def __init__(self, connection: WebSocketClientConnection) -> None:
        self._connection = connection
        self._numbers = itertools.count(1)
        self._events: list[str] = []

    async def call(self, method: str, **parameters: object) -> dict[str, Any]:
        """Calls a method and returns the answer; keeps the events that come before it."""
        number = next(self._numbers)
        await self._connection.write_message(json.dumps({"id": number, "method": method, "params": parameters}))
        while True:
            message = await self._message()
            if message.get("id") == number:
                if "error" in message:
                    raise RuntimeError(f"{method}: {message['error']}")
                found: dict[str, Any] = message["result"]
                return found
            self._events.append(message.get("method", ""))

    async def event(self, method: str) -> None:
        """Waits for an event, which may have come during a call since `forget`."""
        while method not in self._events:
            self._events.append((await self._message()).get("method", ""))

    def forget(self) -> None:
        """Forgets the events that came so far."""
        self._events.clear()

    async def _message(self) -> dict[str, Any]:
        text = await self._connection.read_message()
        if text is None:
            raise RuntimeError("the browser is gone")
        message: dict[str, Any] = json.loads(text)
        return message

    async def value(self, expression: str) -> Any:
        """The value of an expression in the page."""
        answer = await self.call("Runtime.evaluate", expression=expression, awaitPromise=True, returnByValue=True)
        return answer["result"].get("value")

    async def picture(self, place: Path) -> None:
        """Writes a picture of the visible part of the page."""
        await self.value(_PAINTED)
        answer = await self.call("Page.captureScreenshot", format="png")
        place.write_bytes(base64.b64decode(answer["data"]))


async def opened(browser: Browser, page: Path) -> tuple[float, float]:
    """Opens the page, and returns the seconds until it was loaded and until it was painted."""
    await browser.call("Page.enable")
    browser.forget()
    start = time.monotonic()
    await browser.call("Page.navigate", url=page.as_uri())
    await browser.event("Page.loadEventFired")
    loaded = time.monotonic() - start
    await browser.value(_PAINTED)
    return loaded, time.monotonic() - start


async def pictures(browser: Browser, folder: Path) -> None:
    """Writes pictures of the page at each width and in each colour scheme."""
    folder.mkdir(parents=True, exist_ok=True)
    for width, height in _SIZES:
        await browser.call("Emulation.setDeviceMetricsOverride", width=width, height=height, deviceScaleFactor=1, mobile=width < _NARROW)
        for scheme in ("light", "dark"):
            await browser.call("Emulation.setEmulatedMedia", features=[{"name": "prefers-color-scheme", "value": scheme}])
            await _scheme(browser, folder, f"{width}_{scheme}")
            wide = await browser.value("document.documentElement.scrollWidth")
            if wide > width:
                print(f"at a width of {width} the page has {wide} columns")


async def _scheme(browser: Browser, folder: Path, name: str) -> None:
    """Writes pictures of the top, of the filtered page, and of the end."""
    await browser.value("window.scrollTo(0, 0)")
    await browser.picture(folder / f"top_{name}.png")
    await browser.value(_FILTER % json.dumps("9 2"))
    await browser.value("for (const one of [...document.querySelectorAll('main details')].slice(0, 3)) one.open = true")
    await browser.picture(folder / f"filter_{name}.png")
    await browser.value("for (const one of document.querySelectorAll('main details[open]')) one.open = false")
    await browser.value(_FILTER % '""')
    # The first pass gives their height to parts that were not laid out yet.
    for _ in range(2):
        await browser.value("window.scrollTo(0, document.body.scrollHeight)")
        await browser.value(_PAINTED)
    await browser.picture(folder / f"end_{name}.png")


@contextlib.asynccontextmanager
async def started() -> AsyncIterator[Browser]:
    """A page of a new browser."""
    with tempfile.TemporaryDirectory(prefix="page-", ignore_cleanup_errors=True) as profile:
        port = Path(profile, "DevToolsActivePort")
        with subprocess.Popen([*_BROWSER[:-1], f"--user-data-dir={profile}", _BROWSER[-1]], stdin=subprocess.DEVNULL,
                              stdout=subprocess.DEVNULL, stderr=subprocess.DEVNULL) as process:
            try:
                browser = Browser(await websocket_connect(await _address(port), max_message_size=1 << 28))
                target = (await browser.call("Target.getTargets"))["targetInfos"]
                place = next(one["targetId"] for one in target if one["type"] == "page")
                yield Browser(await websocket_connect(f"{await _origin(port)}/devtools/page/{place}", max_message_size=1 << 28))
            finally:
                process.terminate()


async def run(page: Path, folder: Optional[Path]) -> tuple[float, float]:
    """Opens the page in a new browser."""
    async with started() as browser:
        times = await opened(browser, page)
        rows = await browser.value(_ROWS)
        print(f"loaded after {times[0]:.2f} s, painted after {times[1]:.2f} s; rows that are laid out: {rows}")
        if folder is not None:
            await pictures(browser, folder)
    return times


async def printed(page: Path, pdf: Path) -> None:
    """Prints the page to a file, in pieces: the browser sends no answer of many megabytes."""
    async with started() as browser:
        await opened(browser, page)
        answer = await browser.call("Page.printToPDF", transferMode="ReturnAsStream")
        with pdf.open("wb") as output:
            is_ended = False
            while not is_ended:
                piece = await browser.call("IO.read", handle=answer["stream"], size=_PIECE)
                output.write(base64.b64decode(piece["data"]) if piece.get("base64Encoded") else piece["data"].encode())
                is_ended = piece["eof"]


async def _lines(port: Path) -> list[str]:
    """Waits for the lines in which the browser writes its port."""
    for _ in range(_STARTS_IN):
        if port.exists() and len(port.read_text().splitlines()) == 2:
            return port.read_text().splitlines()
        await asyncio.sleep(0.1)
    raise RuntimeError("the browser does not start")


async def _origin(port: Path) -> str:
    return f"ws://127.0.0.1:{(await _lines(port))[0]}"


async def _address(port: Path) -> str:
    return f"{await _origin(port)}{(await _lines(port))[1]}"


def main() -> int:
    """Opens the page as the arguments say."""
    if len(sys.argv) == 4 and sys.argv[1] == "--print":
        asyncio.run(printed(Path(sys.argv[2]).resolve(), Path(sys.argv[3])))
        return 0
    if len(sys.argv) not in (2, 3):
        print("usage: /usr/bin/python3 bench/page.py PAGE [FOLDER], or --print PAGE PDF", file=sys.stderr)
        return 64
    page = Path(sys.argv[1]).resolve()
    folder = Path(sys.argv[2]) if len(sys.argv) == 3 else None
    times = [asyncio.run(run(page, folder if number == _RUNS - 1 else None)) for number in range(_RUNS)]
    loaded, painted = ([one[which] for one in times] for which in (0, 1))
    print(f"{page.stat().st_size / 1e6:.1f} MB: loaded after {min(loaded):.2f} to {max(loaded):.2f} s, painted after {min(painted):.2f} to "
          f"{max(painted):.2f} s")
    return 0


if __name__ == "__main__":
    sys.exit(main())

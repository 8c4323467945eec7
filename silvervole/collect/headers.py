"""Adds headers to the requests that a page sends to its own server, and to no other.

A header often is a key. The browser's own way would send it with every request, also to
the servers from which a page takes fonts or counts its visits. So the requests to the
page's server are held up by a connection of their own, given the headers, and let go.
"""
from __future__ import annotations

import json
import threading
from types import TracebackType
from typing import Any

from .ends import End, Stop

START_SECONDS = 20.0
ENABLE = 1
# The address's scheme, host and port as the browser writes them.
ORIGIN = "try { return new URL(arguments[0]).origin; } catch (error) { return 'null'; }"


class OwnHeaders:
    """For the time of a with statement: each request to the address's server carries the headers."""

    def __init__(self, browser: Any, address: str, headers: tuple[tuple[str, str], ...]) -> None:
        self.browser = browser
        self.address = address
        self.headers = headers
        self.socket = ""
        self.pattern = ""
        self.ready = threading.Event()
        self.end: Any = None
        self.thread = threading.Thread(target=self.run, daemon=True)

    def __enter__(self) -> None:
        if self.headers:
            debugger = self.browser.capabilities["goog:chromeOptions"]["debuggerAddress"]
            self.socket = f"ws://{debugger}/devtools/page/{self.browser.current_window_handle}"
            self.pattern = f"{self.browser.execute_script(ORIGIN, self.address)}/*"
            self.thread.start()
            if not self.ready.wait(START_SECONDS):
                raise Stop(End.BROWSER, "the browser lets no header be added")

    def __exit__(self, kind: type[BaseException] | None, error: BaseException | None,
                 trace: TracebackType | None) -> None:
        if self.end is not None:
            self.end()
            self.thread.join(START_SECONDS)

    def run(self) -> None:
        """The connection, until it is ended or the browser is."""
        import trio
        import trio_websocket

        async def serve() -> None:
            with trio.CancelScope() as scope:
                token = trio.lowlevel.current_trio_token()
                self.end = lambda: token.run_sync_soon(scope.cancel)
                async with trio_websocket.open_websocket_url(self.socket, max_message_size=1 << 26) as socket:
                    await socket.send_message(json.dumps(
                        {"id": ENABLE, "method": "Fetch.enable", "params": {"patterns": [{"urlPattern": self.pattern}]}}))
                    while True:
                        await self.answer(socket, json.loads(await socket.get_message()))

        try:
            trio.run(serve)
        except Exception:  # the browser ended, or took no connection: whoever waits is told by that
            self.end = None

    async def answer(self, socket: Any, message: dict[str, Any]) -> None:
        """Lets a request go that was held up, with the headers."""
        if message.get("id") == ENABLE and "result" in message:
            self.ready.set()
        if message.get("method") != "Fetch.requestPaused":
            return
        request = message["params"]["request"]
        added = {name.lower() for name, _ in self.headers}
        headers = [{"name": name, "value": value} for name, value in request["headers"].items() if name.lower() not in added]
        headers += [{"name": name, "value": value} for name, value in self.headers]
        await socket.send_message(json.dumps({
            "id": ENABLE + 1, "method": "Fetch.continueRequest",
            "params": {"requestId": message["params"]["requestId"], "headers": headers}}))

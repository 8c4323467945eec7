"""What the browser tells of its network: the page's own response, and when all is quiet."""
from __future__ import annotations

import json
import time
from typing import Any, Iterator

STEP_SECONDS = 0.05
# Within which the driver tells what the browser gave up.
TELLING_SECONDS = 3.0
# Requests that are under way as long as the page is there, or that the page doesn't wait for.
ENDLESS = {"EventSource", "WebSocket", "Ping", "Other"}


class Traffic:
    """The events of one page's main frame, read from the driver's log as they come."""

    def __init__(self, browser: Any) -> None:
        self.browser = browser
        self.frame = browser.execute_cdp_cmd("Page.getFrameTree", {})["frameTree"]["frame"]["id"]
        self.idle = False
        # Of the requests under way, and of those that the browser was told to give up: whether it is a frame's document.
        self.under_way: dict[str, bool] = {}
        self.given_up: list[bool] = []
        # When the page's own requests were heard of last.
        self.busy = time.monotonic()
        # Of the last response that was to be the page.
        self.type = ""
        self.status = 0
        self.fault = ""
        for _ in self.events():
            pass  # what an earlier page left

    def events(self) -> Iterator[tuple[str, dict[str, Any]]]:
        """The name and the parameters of each event since the last call."""
        for entry in self.browser.get_log("performance"):
            message = json.loads(entry["message"])["message"]
            yield message["method"], message["params"]

    def is_page(self, given: dict[str, Any]) -> bool:
        """Whether a request or a response is that of the page itself."""
        return given.get("type") == "Document" and given.get("frameId") == self.frame

    def count(self, name: str, given: dict[str, Any]) -> None:
        """Takes note of a request that begins or ends."""
        if name == "Network.requestWillBeSent" and given.get("type") not in ENDLESS:
            self.under_way[given["requestId"]] = given.get("type") == "Document" and given.get("frameId") != self.frame
        elif name in ("Network.loadingFinished", "Network.loadingFailed"):
            is_frame = self.under_way.pop(given["requestId"], None)
            if given.get("canceled") and is_frame is not None:
                self.given_up.append(is_frame)

    def quiet_seconds(self) -> float:
        """For how long no request of the page has been under way; what its frames load isn't counted."""
        before = dict(self.under_way)
        self.listen()
        if self.under_way != before or not all(self.under_way.values()):
            self.busy = time.monotonic()
        return time.monotonic() - self.busy

    def waited_for_frames(self) -> bool:
        """Whether nothing but the documents of frames held up a page that was given up."""
        end = time.monotonic() + TELLING_SECONDS
        while not self.given_up and time.monotonic() < end:
            self.listen()
            time.sleep(STEP_SECONDS)
        return self.given_up != [] and all(self.given_up)

    def listen(self) -> None:
        """Takes in what came since the last call."""
        documents = set()
        for name, given in self.events():
            self.count(name, given)
            if name == "Network.responseReceived" and self.is_page(given):
                self.type = given["response"]["mimeType"]
                self.status = int(given["response"]["status"])
            elif name == "Network.requestWillBeSent" and self.is_page(given):
                documents.add(given["requestId"])
            elif name == "Network.loadingFailed" and given["requestId"] in documents:
                self.fault = given["errorText"]
            elif name == "Page.lifecycleEvent" and given["frameId"] == self.frame:
                # "init" begins a new document, in which nothing is quiet yet.
                self.idle = given["name"] == "networkIdle" or (self.idle and given["name"] != "init")

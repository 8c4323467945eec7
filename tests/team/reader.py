"""A person at the page to judge on, who has a keyboard and no mouse, and what is expected of each state of the page."""
from __future__ import annotations

import base64
import os
import pathlib
import subprocess
import time
from typing import Any

from serving import HOST, PROGRAM, ROOT
from silvervole.collect.taking import take

from ..axe import violations
from ..collector.test_view import CONTRAST
from ..support import same
from .proxies import Proxy

PATIENCE = 60
# axe-core takes its time with thousands of elements on a busy machine.
AXE_PATIENCE = 300
PICTURES = pathlib.Path(ROOT, "docs", "use", "pictures")
# The texts that were said, one after another, from when this runs.
LISTEN = """
window.said = [];
new MutationObserver(() => window.said.push(document.getElementById('status').textContent))
  .observe(document.getElementById('status'), { childList: true, characterData: true, subtree: true });
"""

# From the first moment of a page, what breaks its content policy.
POLICY = """
window.broken = [];
document.addEventListener('securitypolicyviolation', (event) => window.broken.push(`${event.effectiveDirective} ${event.blockedURI}`));
"""


def signed_in(name: str | None) -> dict[str, str]:
    """The field by which the single-sign-on proxy tells a person."""
    return {"x-forwarded-user": f"{name}@example.org"} if name else {}


class Reader:
    """A person at the page, who has a keyboard and no mouse."""

    def __init__(self, browser: Any, proxy: Proxy) -> None:
        self.browser, self.proxy = browser, proxy
        browser.set_script_timeout(AXE_PATIENCE)
        browser.execute_cdp_cmd("Network.enable", {})
        browser.execute_cdp_cmd("Page.addScriptToEvaluateOnNewDocument", {"source": POLICY})

    def sign_in(self, name: str | None) -> None:
        """Sends this person's name from now on."""
        self.browser.execute_cdp_cmd("Network.setExtraHTTPHeaders", {"headers": signed_in(name)})

    def open(self, address: str) -> None:
        """Opens an address of the page, and waits until it shows something."""
        self.browser.get(f"http://{HOST}:{self.proxy.port}/{address}")
        self.wait("the page is there", "return document.documentElement.dataset.ready === 'true'")
        self.settle()

    def wait(self, what: str, script: str) -> Any:
        """What a script gives, as soon as that is something."""
        end = time.monotonic() + PATIENCE
        while time.monotonic() < end:
            if found := self.browser.execute_script(script):
                return found
            time.sleep(0.1)
        raise TimeoutError(f"{what}: {self.browser.execute_script('return document.body.innerText')[:600]}")

    def settle(self) -> None:
        """Waits until the desk isn't asked any more."""
        self.wait("the desk has answered", "return !/^(Asking|Sending)/.test(document.getElementById('status').textContent)")

    def keys(self, *keys: str) -> None:
        """Presses keys."""
        from selenium.webdriver.common.action_chains import ActionChains
        for key in keys:
            ActionChains(self.browser).send_keys(key).perform()

    def tab_to(self, what: str, script: str) -> None:
        """Presses Tab until a script says that the focus is there."""
        from selenium.webdriver.common.keys import Keys
        for _ in range(80):
            if self.browser.execute_script(f"const at = document.activeElement; return Boolean({script})"):
                return
            self.keys(Keys.TAB)
        raise AssertionError(f"no way by Tab to {what}")

    def text(self, part: str = "body") -> str:
        return self.browser.execute_script("return document.querySelector(arguments[0])?.innerText ?? ''", part)

    def title(self) -> str:
        return self.text("#title")


def audited(reader: Reader, what: str) -> None:
    """Expects that neither the desk's own audit nor axe-core finds anything on the page as it is shown, nor the browser against its content policy."""
    snapshot = take(reader.browser, "https://desk.example/").text.encode("utf-8")
    done = subprocess.run([PROGRAM, "-", "audit"], input=snapshot, capture_output=True, check=False)
    failed = [line for line in done.stdout.decode("utf-8").splitlines() if " node " in line and line.split()[3] == "failed"]
    same(f"{what}: the desk's own audit", (done.returncode, failed), (0, []))
    same(f"{what}: axe-core", violations(reader.browser), [])
    same(f"{what}: the page's own content policy", reader.browser.execute_script("return window.broken"), [])


def checked(reader: Reader, what: str, picture: str | None = None) -> None:
    """Expects a state of the page to be accessible: by two audits, wide and narrow, in dark, in high contrast and still."""
    browser = reader.browser
    audited(reader, what)
    for features in ([("prefers-color-scheme", "light")], [("prefers-color-scheme", "dark")]):
        browser.execute_cdp_cmd("Emulation.setEmulatedMedia", {"features": [{"name": name, "value": value} for name, value in features]})
        same(f"{what}: texts without enough contrast, {features[0][1]}", browser.execute_script(CONTRAST), [])
    browser.execute_cdp_cmd("Emulation.setEmulatedMedia", {
        "features": [{"name": "forced-colors", "value": "active"}, {"name": "prefers-reduced-motion", "value": "reduce"}]})
    same(f"{what}: high contrast, and no motion", browser.execute_script("""
        return [matchMedia('(forced-colors: active)').matches, getComputedStyle(document.documentElement).scrollBehavior,
                document.getAnimations().length]"""), [True, "auto", 0])
    browser.execute_cdp_cmd("Emulation.setEmulatedMedia", {"features": []})
    size(browser, 320, 640)
    same(f"{what}: on 320 pixels nothing scrolls sideways", browser.execute_script("return document.documentElement.scrollWidth"), 320)
    small = browser.execute_script("""return [...document.querySelectorAll('button, input[type=text], select, .button')]
        .map((one) => one.getBoundingClientRect().height).filter((height) => height < 24)""")
    same(f"{what}: what is too small to hit", small, [])
    audited(reader, f"{what}, on 320 pixels")
    size(browser, 1280, 900)
    if picture and os.environ.get("PICTURES"):
        PICTURES.mkdir(exist_ok=True)
        shot = browser.execute_cdp_cmd("Page.captureScreenshot", {"format": "png"})["data"]
        (PICTURES / f"{picture}.png").write_bytes(base64.b64decode(shot))


def size(browser: Any, width: int, height: int) -> None:
    """Gives the page this size in CSS pixels; 320 is 1,280 at 400 %."""
    browser.execute_cdp_cmd("Emulation.setDeviceMetricsOverride", {"width": width, "height": height, "deviceScaleFactor": 1, "mobile": False})

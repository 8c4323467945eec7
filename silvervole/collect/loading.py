"""Opens a page, waits until it is ready, and refuses what is no page to collect."""
from __future__ import annotations

import re
import time
from typing import Any, NamedTuple

from .ends import End, Stop, first_line
from .headers import OwnHeaders
from .options import Options
from .patience import Patience
from .places import Place
from .traffic import Traffic

HTML_TYPES = ("text/html", "application/xhtml+xml")
# What a browser shows before any page, and beside a download.
BLANK = re.compile(r"(data:,|about:blank)$")
ABORTED = "net::ERR_ABORTED"
STEP_SECONDS = 0.05
# To read a page takes its time, however little its loading was given.
LEAST_SCRIPT_SECONDS = 30.0
# What a driver says while one document makes room for the next.
MOVING = re.compile(r"navigation|execution context|document unloaded|javascript error", re.IGNORECASE)

# A page's images may hide a property of the document by their names, so they are
# read through its prototype.
SHOWN = """
const type = Object.getOwnPropertyDescriptor(Document.prototype, 'contentType').get.call(document);
const entry = performance.getEntriesByType('navigation')[0];
const broken = type !== 'text/html' && Document.prototype.querySelector.call(document, 'parsererror');
const plain = (address) => { const url = new URL(address); url.hash = ''; return url.href; };
let asked = arguments[0];
try { asked = plain(asked); } catch (error) { /* then it stands as it was given */ }
return { address: plain(location.href), asked, type,
  status: entry ? entry.responseStatus || 0 : 0,
  broken: broken ? String(broken.textContent).slice(0, 300) : '' };
"""

# A selector that doesn't parse is told from one that finds nothing.
FOUND = """
try { return Document.prototype.querySelector.call(document, arguments[0]) !== null; }
catch (error) { return error.name === 'SyntaxError' ? 'wrong' : false; }
"""


class Shown(NamedTuple):
    """What the browser shows: its address, and the one asked for, both as parsed and without a fragment."""

    address: str
    asked: str
    type: str
    status: int
    broken: str


def load(browser: Any, place: Place, options: Options) -> Traffic:
    """Opens the page and waits for its load event, what --wait names, and what --settle adds."""
    from selenium.common.exceptions import InvalidSessionIdException, TimeoutException, WebDriverException

    end = time.monotonic() + options.timeout
    try:
        set_cookies(browser, place, options)
        traffic = Traffic(browser)
        browser.set_page_load_timeout(options.timeout)
        browser.set_script_timeout(max(LEAST_SCRIPT_SECONDS, options.timeout))
        with OwnHeaders(browser, place.address, options.headers):
            with Patience(f"{place.address} hasn't loaded yet"):
                open_address(browser, place, options, traffic)
            wait_more(browser, place, options, traffic, end)
    except TimeoutException:
        raise Stop(End.TIME, f"{place.address} took more than {options.timeout:g} seconds to load") from None
    except InvalidSessionIdException:
        raise  # the browser ended
    except WebDriverException as error:
        raise Stop(End.LOAD, f"the page doesn't load: {place.address}: {first_line(error)}") from None
    return traffic


def open_address(browser: Any, place: Place, options: Options, traffic: Traffic) -> None:
    """Waits for the load event; where frames are wanted, one that never loads doesn't hold up its page for longer than the time given."""
    from selenium.common.exceptions import TimeoutException
    try:
        browser.get(place.address)
    except TimeoutException:
        if not (options.frames and traffic.waited_for_frames()):
            raise


def set_cookies(browser: Any, place: Place, options: Options) -> None:
    """Gives the browser the cookies of the page's server."""
    for name, value in options.cookies:
        done = browser.execute_cdp_cmd("Network.setCookie", {"name": name, "value": value, "url": place.address})
        if not done.get("success"):
            raise Stop(End.USAGE, f"the browser takes no cookie {name} for {place.address}")


def wait_more(browser: Any, place: Place, options: Options, traffic: Traffic, end: float) -> None:
    """Waits on after the load event."""
    if options.wait == "network-idle":
        ready, what = lambda: is_idle(traffic), "its network isn't idle"
    elif options.wait != "load":
        ready, what = lambda: is_found(browser, options.wait), f"nothing matches {options.wait}"
    else:
        ready, what = lambda: True, ""
    with Patience(f"{place.address}: {what}"):
        while not ready():
            if time.monotonic() >= end:
                raise Stop(End.TIME, f"{place.address}: {what} after {options.timeout:g} seconds")
            time.sleep(STEP_SECONDS)
    with Patience(f"{place.address} settles"):
        time.sleep(options.settle / 1000)


def is_idle(traffic: Traffic) -> bool:
    """Whether the page has had no request under way for half a second, as Chromium counts it."""
    traffic.listen()
    return traffic.idle


def is_found(browser: Any, selector: str) -> bool:
    """Whether some element of the page matches the selector."""
    from selenium.common.exceptions import WebDriverException
    try:
        found = browser.execute_script(FOUND, selector)
    except WebDriverException as error:
        if MOVING.search(first_line(error)):
            return False
        raise
    if found == "wrong":
        raise Stop(End.USAGE, f"--wait {selector} is neither load, network-idle nor a CSS selector")
    return bool(found)


def shown(browser: Any, place: Place) -> Shown:
    """What the browser shows now."""
    from selenium.common.exceptions import InvalidSessionIdException, TimeoutException, WebDriverException
    try:
        return Shown(**browser.execute_script(SHOWN, place.address))
    except TimeoutException:
        raise Stop(End.TIME, f"{place.address} leaves its browser no time in which it can be read") from None
    except InvalidSessionIdException:
        raise  # the browser ended
    except WebDriverException as error:
        raise Stop(End.LOAD, f"the page doesn't load: {place.address}: {first_line(error)}") from None


def check(browser: Any, place: Place, options: Options, traffic: Traffic) -> Shown:
    """Refuses what the browser shows, unless it is an HTML page, and the one that is wanted."""
    page = shown(browser, place)
    if not re.match(r"(https?|file):", page.address):
        refuse_no_page(place, page, traffic)
    if page.status >= 400:
        raise Stop(End.LOAD, f"the page doesn't load: {place.address}: the server answered with status {page.status}")
    if page.type not in HTML_TYPES:
        raise Stop(End.NOT_HTML, f"{page.address} isn't an HTML page: its type is {page.type}")
    if page.broken:
        raise Stop(End.NOT_HTML, f"{page.address} isn't an HTML page: of type {page.type}, with a fault: {page.broken}")
    if options.url is not None and not options.follow and page.address != page.asked:
        raise moved(page.asked, page.address)
    return page


def moved(asked: str, address: str) -> Stop:
    """The refusal of a page that moved on, which names both addresses."""
    return Stop(End.MOVED, f"{asked} moved on to {address}; --follow takes that page under the address of --url")


def refuse_no_page(place: Place, page: Shown, traffic: Traffic) -> None:
    """Says why the browser shows no page: a download, an answer without one, or an error of its own."""
    traffic.listen()
    if BLANK.match(page.address) and traffic.fault == ABORTED and traffic.status != 204:
        how = "sent as a download" if traffic.type in HTML_TYPES else "a download"
        raise Stop(End.NOT_HTML, f"{place.address} isn't an HTML page: it is {how}, its type is {traffic.type}")
    why = traffic.fault or "the browser shows no page"
    if traffic.status == 204:
        why = "the server answered with status 204, without a page"
    raise Stop(End.LOAD, f"the page doesn't load: {place.address}: {why}")

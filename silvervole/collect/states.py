"""What people do on a page: reads the steps of --states, and does them in the browser."""
from __future__ import annotations

import re
import time
import tomllib
from dataclasses import dataclass
from typing import Any, Callable

from .ends import End, Stop, first_line
from .places import spelt
from .traffic import Traffic

STEP_SECONDS = 0.05
QUIET_SECONDS = 0.5
LONGEST_NAME = 60
MODIFIERS = {"Shift": "SHIFT", "Control": "CONTROL", "Alt": "ALT", "Meta": "META"}
KEYS = {"Enter": "ENTER", "Tab": "TAB", "Escape": "ESCAPE", "Space": "SPACE", "Backspace": "BACKSPACE", "Delete": "DELETE",
        "ArrowUp": "ARROW_UP", "ArrowDown": "ARROW_DOWN", "ArrowLeft": "ARROW_LEFT", "ArrowRight": "ARROW_RIGHT",
        "Home": "HOME", "End": "END", "PageUp": "PAGE_UP", "PageDown": "PAGE_DOWN",
        **{f"F{number}": f"F{number}" for number in range(1, 13)}}

# The elements that a selector finds; behind each >>> it is looked for in the open shadow trees of those before.
FOUND = """
let found = [document];
const all = (root, selector) => [...(root === document ? Document : DocumentFragment).prototype.querySelectorAll.call(root, selector)];
for (const part of arguments[0].split('>>>')) {
  const roots = found.map((one) => (one === document ? one : one.shadowRoot)).filter(Boolean);
  // A selector is wrong also where there is nothing to look in.
  try { found = (roots.length ? roots : [document.createDocumentFragment()]).flatMap((root) => all(root, part.trim())); } catch (error) { return 'wrong'; }
}
return { shown: found.find((one) => one.checkVisibility({ visibilityProperty: true })) || null, some: found.length > 0 };
"""
# Where nothing has the focus, Tab would go on from the element that was asked last while the snapshot was taken.
RESTART = """
const { body } = document;
if (document.activeElement !== body || body.hasAttribute('tabindex')) return;
const hush = (event) => event.stopImmediatePropagation();
const heard = ['focus', 'blur', 'focusin', 'focusout'];
for (const name of heard) window.addEventListener(name, hush, true);
body.setAttribute('tabindex', '-1');
body.focus({ preventScroll: true });
body.blur();
body.removeAttribute('tabindex');
for (const name of heard) window.removeEventListener(name, hush, true);
"""


@dataclass(frozen=True)
class Action:
    """One thing to do: its word, the selector or key, and for a field its text."""

    word: str
    what: str
    text: str = ""

    def __str__(self) -> str:
        return f"{self.word} {self.what}"


@dataclass(frozen=True)
class Step:
    """What leads to a state of the page, and the state's name."""

    number: int
    name: str
    actions: tuple[Action, ...]

    @property
    def ending(self) -> str:
        """What the state's file has in its name."""
        return f"state-{self.number}-{spelt(self.name.replace(' ', '-'))}"

    def refuse(self, why: str) -> Stop:
        """The refusal of this step."""
        return Stop(End.STEP, f"step {self.number} ({self.name}): {why}")


def read_steps(path: str) -> tuple[Step, ...]:
    """The steps of a file in TOML."""
    try:
        with open(path, "rb") as file:
            given = tomllib.load(file)
    except OSError as error:
        raise Stop(End.USAGE, f"--states {path} can't be read: {error.strerror}") from None
    except (tomllib.TOMLDecodeError, UnicodeDecodeError) as error:
        raise Stop(End.USAGE, f"--states {path} isn't TOML: {error}") from None
    steps = given.get("step")
    if set(given) != {"step"} or not isinstance(steps, list) or not steps:
        raise Stop(End.USAGE, f"--states {path}: it holds [[step]] tables and nothing else, at least one")
    read = tuple(read_step(path, number, step) for number, step in enumerate(steps, 1))
    names = [step.name for step in read]
    twice = next((name for name in names if names.count(name) > 1), None)
    if twice is not None:
        raise Stop(End.USAGE, f"--states {path}: two steps are named {twice}")
    return read


def read_step(path: str, number: int, given: Any) -> Step:
    """A step with its name and what is to be done."""
    def refuse(why: str) -> Stop:
        return Stop(End.USAGE, f"--states {path}: step {number}: {why}")

    if not isinstance(given, dict) or set(given) != {"name", "do"}:
        raise refuse("it has a name, and do, and nothing else")
    name, actions = given["name"], given["do"]
    if not isinstance(name, str) or not name.strip() or len(name) > LONGEST_NAME or not name.isprintable():
        raise refuse(f"its name is a text of at most {LONGEST_NAME} characters")
    if not isinstance(actions, list) or not actions:
        raise refuse("do is a list of what to do, at least one")
    return Step(number, name.strip(), tuple(read_action(action, refuse) for action in actions))


def read_action(given: Any, refuse: Callable[[str], Stop]) -> Action:
    """One thing to do, as { click = "#menu" } or { fill = "#words", with = "rain" }."""
    if not isinstance(given, dict) or not all(isinstance(value, str) for value in given.values()):
        raise refuse("each thing to do is a table of texts")
    words = [word for word in DOERS if word in given]
    if len(words) != 1 or set(given) - {words[0]} != ({"with"} if words[0] == "fill" else set()):
        raise refuse(f"each thing to do is one of {', '.join(DOERS)}, and fill has with beside it")
    if words[0] == "press":
        read_keys(given["press"], refuse)
    return Action(words[0], given[words[0]], given.get("with", ""))


def read_keys(word: str, refuse: Callable[[str], Stop]) -> tuple[list[str], str]:
    """The keys to hold, and the one to press, by the names that Selenium has for them."""
    *held, key = word.split("+") if len(word) > 1 else [word]
    if not all(one in MODIFIERS for one in held) or not (key in KEYS or len(key) == 1):
        raise refuse(f"{word} is no key, as Enter, Shift+Tab or a")
    return [MODIFIERS[one] for one in held], KEYS.get(key, key)


class Doer:
    """Does the actions of one step, each within the time that a page is given."""

    def __init__(self, browser: Any, step: Step, traffic: Traffic, timeout: float) -> None:
        self.browser = browser
        self.step = step
        self.traffic = traffic
        self.timeout = timeout

    def do_all(self) -> None:
        """Does what the step says, or is a Stop that says which part failed and why."""
        from selenium.common.exceptions import InvalidSessionIdException, WebDriverException
        for action in self.step.actions:
            try:
                DOERS[action.word](self, action)
            except InvalidSessionIdException:
                raise  # the browser ended
            except WebDriverException as error:
                raise self.step.refuse(f"{action}: {first_line(error)}") from None

    def until(self, action: Action, ready: Callable[[], Any], why: Callable[[], str]) -> Any:
        """What is ready in the end; a Stop where it isn't in time."""
        end = time.monotonic() + self.timeout
        while not (got := ready()):
            if time.monotonic() >= end:
                raise self.step.refuse(f"{action}: {why()} after {self.timeout:g} seconds")
            time.sleep(STEP_SECONDS)
        return got

    def find(self, action: Action) -> dict[str, Any]:
        """What the action's selector finds now."""
        found = self.browser.execute_script(FOUND, action.what)
        if found == "wrong":
            raise self.step.refuse(f"{action}: {action.what} is no CSS selector")
        return dict(found)

    def shown(self, action: Action) -> Any:
        """The first element that the selector finds and that is shown, once there is one."""
        return self.until(action, lambda: self.find(action)["shown"],
                          lambda: "what matches isn't shown" if self.find(action)["some"] else "nothing matches")

    def click(self, action: Action) -> None:
        """Clicks in the middle of an element."""
        self.shown(action).click()

    def hover(self, action: Action) -> None:
        """Moves the pointer onto an element."""
        from selenium.webdriver.common.action_chains import ActionChains
        ActionChains(self.browser).move_to_element(self.shown(action)).perform()

    def fill(self, action: Action) -> None:
        """Types a text into a field in the place of what is there, or chooses the option with that text."""
        from selenium.webdriver.support.ui import Select
        field = self.shown(action)
        if field.tag_name == "select":
            Select(field).select_by_visible_text(action.text)
        else:
            field.clear()
            field.send_keys(action.text)

    def press(self, action: Action) -> None:
        """Presses a key, with others held down."""
        from selenium.webdriver.common.action_chains import ActionChains
        from selenium.webdriver.common.keys import Keys
        self.browser.execute_script(RESTART)
        held, key = read_keys(action.what, self.step.refuse)
        chain = ActionChains(self.browser)
        for one in held:
            chain.key_down(getattr(Keys, one))
        chain.send_keys(getattr(Keys, key) if len(key) > 1 else key)
        for one in held:
            chain.key_up(getattr(Keys, one))
        chain.perform()

    def wait(self, action: Action) -> None:
        """Waits until an element is shown, or until the network is idle."""
        if action.what == "network-idle":
            self.traffic.busy = time.monotonic()
            self.until(action, lambda: self.traffic.quiet_seconds() >= QUIET_SECONDS, lambda: "its network isn't idle")
        else:
            self.shown(action)

    def gone(self, action: Action) -> None:
        """Waits until nothing that the selector finds is shown."""
        self.until(action, lambda: not self.find(action)["shown"], lambda: "it is shown still")


DOERS: dict[str, Callable[[Doer, Action], None]] = {
    "click": Doer.click, "hover": Doer.hover, "fill": Doer.fill, "press": Doer.press, "wait": Doer.wait, "gone": Doer.gone}

"""Headless Chromium for the screen's tests."""

import base64
import tempfile
import time
from collections.abc import Callable, Iterator
from contextlib import contextmanager
from pathlib import Path
from typing import Any, cast

import support
from selenium import webdriver
from selenium.common.exceptions import ElementClickInterceptedException, StaleElementReferenceException
from selenium.webdriver.chrome.service import Service
from selenium.webdriver.common.by import By
from selenium.webdriver.common.keys import Keys
from selenium.webdriver.remote.webelement import WebElement

CHROMIUM, DRIVER = "/usr/bin/chromium", "/usr/bin/chromedriver"
WORDS = ("--headless=new", "--no-sandbox", "--disable-gpu", "--disable-dev-shm-usage", "--hide-scrollbars")
PROBES = Path(__file__).with_name("probes.js").read_text(encoding="utf-8")
CLICKS = 5  # on an element that moves
MOVED = (ElementClickInterceptedException, StaleElementReferenceException)
PHONE = (390, 844)
A4 = 702  # pixels between its margins


class Browser:
    """A browser with one page; its size is that of the page's content."""

    def __init__(self, width: int = 1280, height: int = 900, dark: bool = False, words: tuple[str, ...] = ()):
        options: Any = webdriver.ChromeOptions()
        options.binary_location = CHROMIUM
        self.profile = tempfile.TemporaryDirectory(prefix="screen-browser-")
        for word in (*WORDS, *words, f"--user-data-dir={self.profile.name}"):
            options.add_argument(word)
        options.set_capability("goog:loggingPrefs", {"browser": "ALL"})
        self.driver: Any = webdriver.Chrome(service=Service(DRIVER), options=options)
        self.driver.set_script_timeout(support.WAIT_SECONDS)
        self.resize(width, height)
        self.scheme = "dark" if dark else "light"
        self.media("")
        self.tell("Emulation.setTimezoneOverride", timezoneId="Pacific/Kiritimati")

    def tell(self, method: str, **words: Any) -> Any:
        """Speaks to the browser itself."""
        return self.driver.execute_cdp_cmd(method, words)

    def resize(self, width: int, height: int) -> None:
        self.width, self.height, is_phone = width, height, width < 500
        size = {"width": width, "height": height, "deviceScaleFactor": 1, "mobile": is_phone}
        self.tell("Emulation.setDeviceMetricsOverride", **size)
        self.tell("Emulation.setTouchEmulationEnabled", enabled=is_phone)

    def media(self, media: str) -> None:
        """Shows pages as for a screen (""), or as for paper ("print")."""
        features = [{"name": "prefers-color-scheme", "value": self.scheme}]
        self.tell("Emulation.setEmulatedMedia", media=media, features=features)

    def end(self) -> None:
        self.driver.quit()
        self.profile.cleanup()

    # Pages.

    def open(self, url: str, name: str | None = "ANNA") -> None:
        """Opens a page as in a new tab, with a name given where one is."""
        if name is not None:
            self.driver.get(f"{'/'.join(url.split('/')[:3])}/static/icon.svg")
            self.driver.add_cookie({"name": "screen_name", "value": name, "path": "/"})
            self.script("sessionStorage.clear()")
        self.driver.get_log("browser")
        self.go(url)

    def go(self, url: str) -> None:
        """Goes on to a page in the same tab."""
        self.driver.get(url)
        self.ready()

    def back(self) -> None:
        self.driver.back()
        self.ready()

    def reload(self) -> None:
        self.driver.refresh()
        self.ready()

    def ready(self) -> None:
        self.wait(lambda: self.script("return document.body.dataset.ready") == "yes", "the page")

    def at(self, heading: str) -> None:
        """Waits until another page is there, which something has led to."""
        self.wait(lambda: self.text("h1") == heading, f"the page {heading}")
        self.ready()

    # What is there.

    def script(self, script: str, *given: Any) -> Any:
        return self.driver.execute_script(script, *given)

    def probe(self, name: str, *given: Any) -> Any:
        """What a function of probes.js answers."""
        return self.driver.execute_script(f"{PROBES}\nreturn {name}(...arguments);", *given)

    def all(self, selector: str) -> list[WebElement]:
        return list(self.driver.find_elements(By.CSS_SELECTOR, selector))

    def find(self, selector: str) -> WebElement:
        return cast(WebElement, self.wait(lambda: self.all(selector), selector)[0])

    def field(self, label: str) -> WebElement:
        """The field of a label."""
        return cast(WebElement, self.wait(lambda: self.probe("field", label), label))

    def value(self, label: str) -> str | None:
        """What the field of a label has."""
        return cast(str | None, self.field(label).get_attribute("value"))

    @property
    def title(self) -> str:
        return str(self.driver.title)

    @property
    def focus(self) -> WebElement:
        return cast(WebElement, self.driver.switch_to.active_element)

    def text(self, selector: str) -> str:
        script = "return [...document.querySelectorAll(arguments[0])].map((each) => each.innerText).join('\\n')"
        return str(self.script(script, selector))

    def wait(self, seen: Callable[[], Any], what: str) -> Any:
        return support.until(seen, what=what)

    def says(self, selector: str, words: str) -> str:
        """Waits until an element says some words: all that it says."""
        self.wait(lambda: words in self.text(selector), f"{words!r} in {selector}")
        return self.text(selector)

    def quiet(self) -> None:
        """Waits until nothing is wrong any more with what the page shows."""
        self.wait(lambda: self.text(".alarm") == "", "the page without its alarm")

    def record(self, selector: str) -> None:
        """Keeps all that an element says from now on, also what is gone before it is read."""
        self.probe("record", selector)

    @property
    def heard(self) -> str:
        """All that an element has said since it is recorded."""
        return str(self.script("return window.recorded.join('\\n')"))

    def recorded(self, words: str) -> None:
        """Waits until an element has said some words since it is recorded."""
        self.wait(lambda: words in self.heard, words)

    def unanswered(self, count: int) -> None:
        """Waits until so many commands are said to have no answer, and unfolds them."""
        self.says(".unanswered summary", f"{count} change{'s' if count > 1 else ''} without an answer")
        self.unfold(".unanswered")

    def complaints(self) -> list[str]:
        """What the browser's console complains of since the page was opened: scripts that failed, what the policy forbids."""
        rows = [row["message"] for row in self.driver.get_log("browser") if row["level"] == "SEVERE"]
        return [row for row in rows if "Failed to load resource" not in row]

    # What an operator does.

    def press(self, *keys: str) -> None:
        """Presses keys where the focus is."""
        self.focus.send_keys(*keys)

    def fill(self, label: str, value: str) -> None:
        """Types into a field, or chooses what begins so."""
        field = self.field(label)
        if field.tag_name == "select":
            self.probe("choose", field, value)
        else:
            field.send_keys(Keys.CONTROL, "a")
            field.send_keys(Keys.DELETE)
            field.send_keys(value)

    def click(self, selector: str) -> None:
        """Clicks on an element once it can be clicked and rests; again where it moved away from under the click."""
        for _ in range(CLICKS):
            found = self.wait(lambda: self.probe("resting", selector), f"{selector} to be clicked")
            try:
                self.probe("hearClick", found)
                found.click()
            except MOVED:
                continue
            if self.script("return window.isClicked !== false"):  # another page knows nothing of it
                return
        raise AssertionError(f"{selector} wasn't hit by a click")

    def can_send(self) -> None:
        """Waits until what the form says can be sent."""
        self.wait(lambda: self.all(".send") and self.find(".send").is_enabled(), "the button")

    def send(self) -> None:
        """Sends what the form says, once it can be sent, and sees that it did what was forecast."""
        self.click(".send")
        self.says(".outcome .equal", "As forecast")

    def point_at(self, element: WebElement) -> None:
        """Brings the mouse over an element."""
        self.tell("Input.dispatchMouseEvent", type="mouseMoved", **self.probe("middle", element))

    def unfold(self, selector: str) -> None:
        """Unfolds all that is folded in an element."""
        self.script("document.querySelectorAll(`${arguments[0]} details`).forEach((it) => (it.open = true))", selector)

    def tap_on(self, words: str) -> None:
        """Taps on a link or a button by its words, once it can be tapped on, as a finger does; by its own clock, so that it is
        no long press where the machine is busy."""
        found = self.wait(lambda: self.probe("tapped", words), f"{words!r} to be tapped on")
        point, now = self.probe("middle", found), time.time()
        for kind, points, moment in (("touchStart", [point], now), ("touchEnd", [], now + 0.05)):
            self.tell("Input.dispatchTouchEvent", type=kind, touchPoints=points, timestamp=moment)

    # Paper.

    @contextmanager
    def on_paper(self) -> Iterator[None]:
        """The page as it is laid out for A4."""
        size = self.width, self.height
        self.media("print")
        self.resize(A4, 1000)
        try:
            yield
        finally:
            self.resize(*size)
            self.media("")

    def paper(self, path: str) -> None:
        """The page as it is printed on A4, without backgrounds, as browsers print where nobody asks for them."""
        shown = self.tell("Page.printToPDF", paperWidth=8.27, paperHeight=11.69)
        Path(path).write_bytes(base64.b64decode(shown["data"]))

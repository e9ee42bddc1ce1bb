#!/usr/bin/python3
"""Makes the pictures of docs/use/SCREEN.md: a screen over the sample fortnight in headless Chromium.

    OUTAGEBOOK=FILE python3 screen/make_pictures.py          # writes docs/pictures/

Wants what the screen's tests want. The pictures are WebP, so that they are small.
"""

import base64
import sys
from pathlib import Path

sys.path.insert(0, str(Path(__file__).resolve().parent / "tests"))

import browser  # noqa: E402
import support  # noqa: E402
from selenium.webdriver.common.keys import Keys  # noqa: E402

PICTURES = support.ROOT / "docs/pictures"
QUALITY = 75


def now(page: browser.Browser, url: str) -> None:
    page.open(f"{url}/")
    page.fill("Go to time", "2025-03-27 15:00:00")
    page.says("main", "14:22:10")
    page.wait(lambda: len(page.all(".diagram .node.by_tie")) == 3, "the sections on the tie")


def enter(page: browser.Browser, url: str) -> None:
    page.open(f"{url}/enter")
    for device, clock in (("LBS-21", "0805"), ("TIE-1", "0830"), ("LBS-21", "1040"), ("TIE-1", "1044")):
        page.driver.switch_to.active_element.send_keys(device, Keys.TAB, f"31.3.2025 {clock}", Keys.TAB, Keys.TAB)
    page.fill("Cause", "2")
    page.fill("Ticket", "4711")
    page.wait(lambda: len(page.all(".forecast .steps li")) == 4, "the forecast")
    page.driver.execute_script("window.scrollTo(0, 0)")


def sent(page: browser.Browser, url: str) -> None:
    page.open(f"{url}/enter?device=LBS-22&at=2025-04-06T23:52:00%2B02:00", "CREW-3")
    page.send()
    page.driver.execute_script("document.querySelector('.outcome').scrollIntoView()")


def year(page: browser.Browser, url: str) -> None:
    page.open(f"{url}/year")
    page.says("main", "194.126")


SHOTS = {
    "screen-now": (now, 1280, 860, False),
    "screen-enter": (enter, 1280, 920, False),
    "screen-year": (year, 1280, 900, True),
    "screen-sent-phone": (sent, 390, 780, False),
}


def main() -> int:
    PICTURES.mkdir(exist_ok=True)
    screen = support.Screen(support.fortnight("pictures"), "--name", "Sample fortnight")
    try:
        for name, (shown, width, height, dark) in SHOTS.items():
            page = browser.Browser(width, height, dark)
            try:
                shown(page, screen.url)
                kind = {"format": "webp", "quality": QUALITY}
                picture = page.driver.execute_cdp_cmd("Page.captureScreenshot", kind)["data"]
            finally:
                page.end()
            (PICTURES / f"{name}.webp").write_bytes(base64.b64decode(picture))
            print(PICTURES / f"{name}.webp")
    finally:
        screen.end()
    return 0


if __name__ == "__main__":
    sys.exit(main())

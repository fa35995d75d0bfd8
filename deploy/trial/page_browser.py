"""A headless Chromium, and the portal page in it, with what the trial asks of both."""

import base64
import contextlib
import time
from collections.abc import Callable
from pathlib import Path
from typing import Any, Self

from selenium import webdriver
from selenium.webdriver.chrome.service import Service
from selenium.webdriver.common.action_chains import ActionChains
from selenium.webdriver.common.by import By
from selenium.webdriver.common.keys import Keys
from selenium.webdriver.remote.webelement import WebElement

from stand import HOST, Stand, check

SWITCHES = (
    "--headless=new", "--no-sandbox", "--disable-gpu", "--ignore-certificate-errors", "--disable-dev-shm-usage",
    f"--host-resolver-rules=MAP {HOST} 127.0.0.1", "--no-first-run", "--disable-background-networking",
    "--disable-component-update",
)
PHONE = (360, 780)
DESK = (1280, 900)
LETTERS_OF_BROWSER = 16
# What scrolls: `main`, or on a screen that is low for its letters the page.
SCROLLER = "const main = document.querySelector('main');" \
           "const scroller = getComputedStyle(main).overflowY === 'auto' ? main : document.scrollingElement;"


class Browser:
    """A browser of its own, which asks for pages in some languages, with letters of a size."""

    def __init__(self, profile: Path, languages: str = "en", letters: int = LETTERS_OF_BROWSER) -> None:
        options = webdriver.ChromeOptions()
        for word in (*SWITCHES, f"--user-data-dir={profile}", f"--accept-lang={languages}"):
            options.add_argument(word)
        options.add_experimental_option("prefs", {"webkit.webprefs.default_font_size": letters})
        options.set_capability("goog:loggingPrefs", {"browser": "ALL"})
        options.set_capability("unhandledPromptBehavior", "accept")
        self.driver = webdriver.Chrome(service=Service("/usr/bin/chromedriver"), options=options)
        self.size = DESK

    def __enter__(self) -> Self:
        return self

    def __exit__(self, *_: object) -> None:
        self.driver.quit()

    def script(self, text: str, *values: object) -> Any:
        """Runs a script in the page and gives what it returns."""
        return self.driver.execute_script(text, *values)

    def element(self, name: str) -> WebElement:
        """The element with this id."""
        return self.driver.find_element(By.ID, name)

    def elements(self, selector: str) -> list[WebElement]:
        """All elements of a selector."""
        return self.driver.find_elements(By.CSS_SELECTOR, selector)

    def text(self, name: str) -> str:
        """The text that is seen of the element with this id."""
        return self.element(name).text

    def focus(self) -> str:
        """What has the focus, by its label, its name or its text."""
        return self.script("const a = document.activeElement;"
                           "return a.getAttribute('aria-label') || a.id || a.textContent;")

    def keys(self, *keys: str) -> None:
        """Presses keys, one after the other."""
        chain = ActionChains(self.driver)
        for key in keys:
            chain.send_keys(key)
        chain.perform()

    def tab_to(self, label: str, most: int = 200) -> bool:
        """Whether the Tab key leads there."""
        for _ in range(most):
            if self.focus() == label:
                return True
            self.keys(Keys.TAB)
        return False

    def press_element(self, button: WebElement) -> None:
        """Presses a button, in the middle of what scrolls."""
        self.script("arguments[0].scrollIntoView({ block: 'center' });", button)
        button.click()

    def click(self, name: str) -> None:
        """Presses the button with this id."""
        self.press_element(self.element(name))

    def width(self, width: int, height: int = 900) -> None:
        """Gives the window a size; a narrow or low one is a phone's, which is used by a finger."""
        self.size, is_phone = (width, height), min(width, height) < 500
        self.driver.execute_cdp_cmd("Emulation.setDeviceMetricsOverride",
                                    {"width": width, "height": height, "deviceScaleFactor": 1, "mobile": is_phone})
        self.driver.execute_cdp_cmd("Emulation.setTouchEmulationEnabled", {"enabled": is_phone})
        time.sleep(0.1)

    def media(self, **features: str) -> None:
        """Has the page shown in another scheme, as prefers_color_scheme="dark"."""
        self.driver.execute_cdp_cmd("Emulation.setEmulatedMedia", {"features": [
            {"name": name.replace("_", "-"), "value": value} for name, value in features.items()]})
        time.sleep(0.1)

    def letters(self, percent: int) -> None:
        """Gives all letters another size."""
        self.script("document.documentElement.style.fontSize = arguments[0];", f"{percent}%" if percent != 100 else "")
        time.sleep(0.1)

    def picture(self, path: Path) -> None:
        """Takes a photograph."""
        picture = self.driver.execute_cdp_cmd("Page.captureScreenshot", {})
        path.write_bytes(base64.b64decode(picture["data"]))


class Page(Browser):
    """The portal page of a stand."""

    def __init__(self, stand: Stand, shots: Path, languages: str = "en", letters: int = LETTERS_OF_BROWSER) -> None:
        super().__init__(stand.folder / f"chromium-{languages}-{letters}", languages, letters)
        self.stand, self.shots = stand, shots

    def open(self) -> None:
        """Opens the page, or loads it again, and waits until it runs."""
        self.driver.get(f"https://{HOST}:{self.stand.port}/")
        self.waits(lambda: not self.element("unready").is_displayed())

    def is_idle(self) -> bool:
        """Whether no answer is awaited."""
        return self.script("return document.readyState === 'complete' && !document.body.hasAttribute('aria-busy');")

    def waits(self, holds: Callable[[], bool], seconds: float = 10) -> bool:
        """Whether something comes to hold while no answer is awaited."""
        end = time.monotonic() + seconds
        while time.monotonic() < end:
            with contextlib.suppress(Exception):
                if self.is_idle() and holds():
                    return True
            time.sleep(0.05)
        return False

    def is_told(self, part: str) -> bool:
        """Whether the page comes to show a fault with these words."""
        return self.waits(lambda: part in self.text("fault"))

    def codes(self) -> list[str]:
        """The list as it is in the page."""
        return [e.get_attribute("data-code") or "" for e in self.elements("#list [data-act=remove]")]

    def offered(self) -> list[str]:
        """The rooms that the page shows, in their order."""
        return [e.text.split("\n")[0] for e in self.elements("#rooms li")]

    def press(self, act: str, code: str) -> None:
        """Presses a button of a room."""
        self.press_element(self.driver.find_element(By.CSS_SELECTOR, f'[data-act={act}][data-code="{code}"]'))

    def find(self, typed: str) -> None:
        """Types into the search for rooms, in place of what is there."""
        self.element("find").clear()
        self.element("find").send_keys(typed or " ", *([] if typed else [Keys.BACKSPACE]))

    def add(self, *codes: str) -> None:
        """Finds rooms and adds them."""
        for code in codes:
            self.find(code)
            self.press("add", code)
        self.find("")

    def hand_in(self, seconds: float = 10) -> bool:
        """Whether the list comes to be handed in."""
        self.click("hand-in")
        return self.waits(lambda: self.text("news").startswith(("Handed in", "Abgegeben")), seconds)

    def enter_key(self, key: str) -> None:
        """Types a key and sends it."""
        self.element("key").clear()
        self.element("key").send_keys(key, Keys.ENTER)

    def sign_in(self, key: str, name: str) -> bool:
        """Signs in, and says whether the name comes to be shown."""
        self.enter_key(key)
        return self.waits(lambda: name in self.text("facts"))

    def sign_out(self) -> None:
        """Signs out, also where a list is lost by that."""
        self.click("sign-out")
        with contextlib.suppress(Exception):
            self.element("go").click()

    def kept(self) -> list[str]:
        """What the tab keeps besides the language."""
        return self.script("return Object.keys(sessionStorage).filter(name => name !== 'rooms-language');")

    def too_wide(self) -> list[Any]:
        """By how many pixels the page is wider than the window, and which elements reach beyond it."""
        return self.script("""
            const main = document.querySelector("main"), dialog = document.querySelector("dialog[open]");
            const width = arguments[0];
            const wider = Math.max(document.documentElement.scrollWidth - width, main.scrollWidth - main.clientWidth,
                dialog ? dialog.scrollWidth - dialog.clientWidth : 0);
            const out = [...document.querySelectorAll("body *")].filter(e => e.getBoundingClientRect().right > width + 1
                || e.getBoundingClientRect().left < -1);
            return wider > 0 || out.length ? [wider, ...out.map(e => e.id || e.textContent)] : [];""", self.size[0])

    def covered(self) -> list[str]:
        """The controls that the message or the header lies over, seen at each place of scrolling."""
        return self.script(SCROLLER + """
            const found = [], height = scroller.clientHeight, top = document.getElementById("messages");
            for (let at = 0; at < scroller.scrollHeight; at += height / 3) {
                scroller.scrollTop = at;
                const from = top.getBoundingClientRect().bottom;
                for (const e of main.querySelectorAll("button, input, h2, #state")) {
                    const box = e.getBoundingClientRect();
                    if (box.width === 0 || box.top < from || box.bottom > innerHeight) continue;
                    const seen = document.elementFromPoint(box.left + box.width / 2, box.top + box.height / 2);
                    if (seen && seen.closest("#messages, header")) found.push(e.id || e.textContent);
                }
            }
            scroller.scrollTop = 0;
            return found;""")

    def shot(self, name: str) -> None:
        """Photographs on a phone and at a desk, where nothing is too wide, and the message covers nothing."""
        for width, height in (PHONE, DESK):
            self.width(width, height)
            check(f"{name}: nothing is wider than {width} pixels", self.too_wide() == [], self.too_wide())
            check(f"{name}: the message covers nothing at {width} pixels", self.covered() == [], self.covered())
            self.width(width, 1700 if width > 500 else 2600)
            self.picture(self.shots / f"{name}-{width}.png")
        self.width(*DESK)

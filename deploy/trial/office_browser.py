"""A clerk's browser in the trial: headless Chromium without scripts, and what every page of the office has to keep.

Each photograph looks at the page as well: its width at 360 and at 1,280 pixels, the name of each control, and the
contrast of its text in both colour schemes. A clerk may have text of another size than browsers have by themselves.
"""

import base64
import contextlib
import time
import urllib.parse

from selenium import webdriver
from selenium.common.exceptions import WebDriverException
from selenium.webdriver.chrome.service import Service
from selenium.webdriver.common.action_chains import ActionChains
from selenium.webdriver.common.by import By
from selenium.webdriver.common.keys import Keys

from stand import CLERKS, HOST, check, fail

WIDTHS = (360, 1280)
TALLEST = 2600
# What needs a name for people who do not see it.
CONTROLS = {
    "link",
    "button",
    "textbox",
    "searchbox",
    "checkbox",
    "radio",
    "combobox",
    "region",
    "img",
    "table",
    "navigation",
    "DisclosureTriangle",
}
NAMELESS_IS_FINE = {"table"}
# The least contrast of text, and of large text (24 pixels, or 18.66 in bold).
CONTRAST = """
    const parse = text => (text.match(/[\\d.]+/g) || []).map(Number);
    const linear = v => v <= 0.03928 ? v / 12.92 : ((v + 0.055) / 1.055) ** 2.4;
    const light = ([r, g, b]) => [r, g, b].map(v => linear(v / 255))
        .reduce((sum, v, i) => sum + v * [0.2126, 0.7152, 0.0722][i], 0);
    const behind = element => {
        for (let e = element; e; e = e.parentElement) {
            const colour = parse(getComputedStyle(e).backgroundColor);
            if (colour.length === 3 || colour[3] === 1) return colour;
        }
        return [255, 255, 255];
    };
    const ratio = (a, b) => (Math.max(light(a), light(b)) + 0.05) / (Math.min(light(a), light(b)) + 0.05);
    const found = [];
    for (const e of document.querySelectorAll("body *")) {
        const style = getComputedStyle(e), box = e.getBoundingClientRect();
        if (!box.width || style.visibility !== "visible") continue;
        const text = [...e.childNodes].some(n => n.nodeType === 3 && n.textContent.trim());
        const size = parseFloat(style.fontSize), large = size >= 24 || size >= 18.66 && style.fontWeight >= 700;
        if (text) found.push([ratio(parse(style.color), behind(e)), large ? 3 : 4.5, e.tagName + " " + e.className]);
        if (e.matches("input:not([type=hidden]), textarea, fieldset"))
            found.push([ratio(parse(style.borderTopColor), behind(e.parentElement)), 3, "border of " + e.tagName]);
    }
    const worst = found.filter(([had, least]) => had < least);
    return [found.length, Math.min(...found.filter(f => f[1] === 4.5).map(f => f[0])), worst.slice(0, 5)];"""
WIDE = """
    return [...document.querySelectorAll("body *")]
        .filter(e => !e.closest(".wide, .skip") && e.getBoundingClientRect().right > innerWidth)
        .map(e => e.outerHTML.slice(0, 60)).slice(0, 5);"""
SMALL = """
    return [...document.querySelectorAll("button, .button, input:not([type=hidden]), nav a")].filter(e => {
        const box = e.getBoundingClientRect();
        return box.width && (box.height < 24 || box.width < 24) && !e.matches("[type=checkbox], [type=radio]");
    }).map(e => e.outerHTML.slice(0, 80));"""


class Clerk:
    """A clerk in a browser of their own, signed in."""

    def __init__(self, stand, name, shots, text=16):
        options = webdriver.ChromeOptions()
        for word in (
            "--headless=new",
            "--no-sandbox",
            "--disable-gpu",
            "--ignore-certificate-errors",
            "--disable-dev-shm-usage",
            f"--host-resolver-rules=MAP {HOST} 127.0.0.1",
            "--no-first-run",
            "--disable-background-networking",
            "--disable-component-update",
            f"--user-data-dir={stand.folder}/chromium-{name}",
        ):
            options.add_argument(word)
        self.text_size = text
        settings = {
            "profile.managed_default_content_settings.javascript": 2,
            "webkit.webprefs.default_font_size": text,
            "webkit.webprefs.default_fixed_font_size": text,
        }
        options.add_experimental_option("prefs", settings)
        options.set_capability("goog:loggingPrefs", {"browser": "ALL"})
        self.driver = webdriver.Chrome(service=Service("/usr/bin/chromedriver"), options=options)
        self.base, self.shots, self.seen = f"https://{HOST}:{stand.port}", shots, []
        password = urllib.parse.quote(CLERKS[name])
        self.driver.get(f"https://{name}:{password}@{HOST}:{stand.port}/office/")

    def __enter__(self):
        return self

    def __exit__(self, *_):
        self.driver.quit()

    # --- what a clerk does

    def visit(self, path):
        """Goes to an address of the page."""
        self.driver.get(self.base + path)

    def text(self):
        """The text of the page."""
        return self.driver.find_element(By.TAG_NAME, "body").text

    def reads(self, *texts):
        """Ends the trial unless all of this is on the page."""
        for text in texts:
            check(f"{self.driver.title}: {text}", text in self.text(), self.text()[:800])

    def submit(self, element):
        """Presses what leads to another page, and waits for that page."""
        old = self.driver.find_element(By.TAG_NAME, "html")
        element.click()
        self.until_left(old)

    def until_left(self, old, seconds=60):
        """Waits for the page after this one."""
        end = time.monotonic() + seconds
        while time.monotonic() < end:
            with contextlib.suppress(WebDriverException):
                html = self.driver.find_element(By.TAG_NAME, "html")
                if html != old and self.driver.find_elements(By.CSS_SELECTOR, "main h1"):
                    return
            time.sleep(0.03)
        fail(f"no page came after {self.driver.current_url}")

    def press(self, text):
        """Presses the first button or link with this text."""
        quoted = f'"{text}"'
        found = self.driver.find_elements(
            By.XPATH, f"//button[contains(normalize-space(.),{quoted})]" f"|//a[contains(normalize-space(.),{quoted})]"
        )
        found = [element for element in found if element.is_displayed()]
        check(f"there is {text!r} to press", found, self.text()[:500])
        self.submit(found[0])

    def put(self, name, text):
        """Fills in a field."""
        field = next(
            one
            for one in self.driver.find_elements(By.NAME, name)
            if one.get_attribute("type") != "hidden" and one.is_displayed()
        )
        field.clear()
        field.send_keys(text)

    def tick(self, value=None):
        """Ticks a box, or the choice with this value."""
        self.driver.find_element(
            By.CSS_SELECTOR, f'main input[value="{value}"]' if value else "main input[type=checkbox][required]"
        ).click()

    def try_list(self, kind, path, label=None):
        """Sends a list on the page of lists."""
        self.visit("/office/lists")
        form = self.driver.find_element(By.XPATH, f"//form[.//input[@value='{kind}' and @name='kind']]")
        form.find_element(By.NAME, "list").send_keys(str(path))
        if label:
            form.find_element(By.NAME, "label").clear()
            form.find_element(By.NAME, "label").send_keys(label)
        self.submit(form.find_element(By.TAG_NAME, "button"))

    def tab_to(self, text, most=60):
        """Whether the Tab key leads to what has this text."""
        for _ in range(most):
            ActionChains(self.driver).send_keys(Keys.TAB).perform()
            if text in (self.driver.switch_to.active_element.text or ""):
                return True
        return False

    def enter(self):
        """Presses Enter where the focus is, and waits for the next page."""
        old = self.driver.find_element(By.TAG_NAME, "html")
        ActionChains(self.driver).send_keys(Keys.ENTER).perform()
        self.until_left(old)

    # --- how a page looks

    def shot(self, name):
        """Photographs of the page, and a look at what each page has to keep."""
        for width in WIDTHS:
            self.photograph(f"{name}-{width}", width)
        self._look_at_names(name)
        self._look_at_colours(name)
        self.seen.append(name)

    def photograph(self, name, width):
        """A photograph at one width. Nothing may be wider than the window."""
        self.command(
            "Emulation.setDeviceMetricsOverride", width=width, height=900, deviceScaleFactor=1, mobile=width < 500
        )
        rem = self.driver.execute_script("return getComputedStyle(document.documentElement).fontSize")
        if rem != f"{self.text_size}px":
            fail(f"{name} has text of {rem}")
        size = self.command("Page.getLayoutMetrics")["cssContentSize"]
        if size["width"] > width:
            fail(f"{name} is {size['width']} pixels wide: {self.driver.execute_script(WIDE)}")
        clip = {"x": 0, "y": 0, "width": width, "height": min(size["height"], TALLEST), "scale": 1}
        taken = self.command("Page.captureScreenshot", captureBeyondViewport=True, clip=clip)
        (self.shots / f"office-{name}.png").write_bytes(base64.b64decode(taken["data"]))
        self.command("Emulation.clearDeviceMetricsOverride")

    def _look_at_names(self, name):
        """Each control has a name, there is one main heading, and nothing is too small to be hit."""
        nodes = self.command("Accessibility.getFullAXTree")["nodes"]
        without = [
            node["role"]["value"]
            for node in nodes
            if not node.get("ignored")
            and node["role"]["value"] in CONTROLS - NAMELESS_IS_FINE
            and not node.get("name", {}).get("value")
        ]
        if without:
            fail(f"{name} has controls without a name: {without}")
        if len(self.driver.find_elements(By.TAG_NAME, "h1")) != 1 or not self.driver.title:
            fail(f"{name} has no title, or not one main heading")
        if small := self.driver.execute_script(SMALL):
            fail(f"{name} has controls that are too small: {small}")

    def _look_at_colours(self, name):
        """In both schemes the contrast of text is 4.5 to 1, and that of large text and of borders of fields 3 to 1."""
        for scheme in ("light", "dark"):
            self._colours(scheme)
            count, least, worst = self.driver.execute_script(CONTRAST)
            if worst:
                fail(f"{name}, {scheme}: too little contrast in {worst} of {count}; least {least}")
        self._colours("light")

    def _colours(self, scheme):
        """Sets the scheme that the browser prefers."""
        self.command("Emulation.setEmulatedMedia", features=[{"name": "prefers-color-scheme", "value": scheme}])

    def pdf(self, name):
        """The page as it is printed, and how many sheets that is."""
        printed = base64.b64decode(
            self.command("Page.printToPDF", preferCSSPageSize=True, paperWidth=8.27, paperHeight=11.69)["data"]
        )
        (self.shots / f"office-{name}.pdf").write_bytes(printed)
        return printed.count(b"/Type /Page\n") or printed.count(b"/Type /Page") - printed.count(b"/Type /Pages")

    def command(self, name, **values):
        """A command of the browser's own protocol."""
        return self.driver.execute_cdp_cmd(name, values)

    def complaints(self):
        """What the browser found wrong, but for the first answer that asks for the password."""
        return [
            entry
            for entry in self.driver.get_log("browser")
            if entry["level"] == "SEVERE" and "401" not in entry["message"]
        ]

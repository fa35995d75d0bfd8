"""The pictures of the guides, in docs/pictures: four photographs of a made-up college, each with the text of its page.

    /usr/bin/python3 deploy/trial/pictures.py PROGRAM FOLDER    says whether the pages still have these texts
    /usr/bin/python3 deploy/trial/pictures.py --make PROGRAM    makes the pictures and the texts anew

The first is the part of the trial; the folder gets the photographs. It compares texts alone: a photograph differs with the
letters and the version of a browser.
"""

import base64
import difflib
import subprocess
import sys
from pathlib import Path
from typing import NamedTuple

# The repository stays as it is.
sys.dont_write_bytecode = True

# pylint: disable=wrong-import-position  # nothing may be written before
from office_browser import Clerk
from office_page import THROWS
from page_browser import SCROLLER, Page
from picture_college import NOTICE, College
from stand import DEPLOY, Stand, check, fail, key_of

KEPT = DEPLOY.parent / "docs" / "pictures"
AGAIN = "/usr/bin/python3 deploy/trial/pictures.py --make PROGRAM"
COLOURS = 16
LARGEST = 60_000    # bytes of a picture
DESK, PHONE = 860, 360
HIGH = 720
SHARP = 1.5         # dots of a picture for one of the page
EDGE = 12           # so much of the page is shown below the last element
# Who signs in on a phone, and adds this room to the list.
SIGNED_IN, ADDED = "R104", "G-101"
# Scrolls a phone so that the search for rooms stands below the message.
TO_SEARCH = SCROLLER + """
    const top = name => document.querySelector(name).getBoundingClientRect();
    document.activeElement.blur();
    scroller.scrollTop += top("label[for=find]").top - top("#messages").bottom - arguments[0];"""


class Picture(NamedTuple):
    """A picture: its name, the photograph, and the text of the page."""

    name: str
    photograph: bytes
    text: str


def photographed(driver, name, width, last=""):
    """The page as it is now: down to the end of its element `last`, or as much as a phone shows."""
    driver.execute_cdp_cmd("Emulation.setDeviceMetricsOverride",
                           {"width": width, "height": HIGH, "deviceScaleFactor": SHARP, "mobile": width == PHONE})
    options = {}
    if last:
        bottom = driver.execute_script("return document.querySelector(arguments[0]).getBoundingClientRect().bottom;", last)
        clip = {"x": 0, "y": 0, "width": width, "height": round(bottom) + EDGE, "scale": 1}
        options = {"captureBeyondViewport": True, "clip": clip}
    taken = driver.execute_cdp_cmd("Page.captureScreenshot", options)
    lines = driver.execute_script("return document.body.innerText;").splitlines()
    return Picture(name, base64.b64decode(taken["data"]), "\n".join(" ".join(line.split()) for line in lines if line.strip()))


def small(photograph):
    """A photograph in few colours."""
    return subprocess.run(["pngquant", "--speed", "1", str(COLOURS), "-"], input=photograph, capture_output=True,
                          check=True).stdout


def start(stand, college):
    """The office, its page, and the residents' page with what the college says of its rooms."""
    college.put_into(stand.file)
    index, rooms = stand.folder / "index.html", stand.folder / "rooms.csv"
    page = (DEPLOY / "portal" / "index.html").read_text(encoding="utf-8")
    index.write_text(page.replace('<p id="notice"></p>', NOTICE), encoding="utf-8")
    rooms.write_text(college.described(), encoding="utf-8")
    stand.start()
    stand.start_page()
    stand.start_proxy(("/srv/rooms/portal/index.html", str(index)), ("/srv/rooms/portal/rooms.csv", str(rooms)))


def carry_out(stand, **job):
    """Something that the keeper has to accept."""
    answer = stand.ask(**job)
    if not answer.get("done"):
        fail(answer)


def on_a_phone(stand, shots):
    """A resident who is about to hand in a list."""
    with Page(stand, shots) as page:
        page.driver.execute_cdp_cmd("Emulation.setScrollbarsHidden", {"hidden": True})
        page.width(PHONE, HIGH)
        page.open()
        page.sign_in(key_of(SIGNED_IN), "")
        page.find("garden")
        page.press("add", ADDED)
        page.script(TO_SEARCH, EDGE)
        return photographed(page.driver, "phone", PHONE)


def pictures_of(program, shots):
    """The four pictures."""
    college = College()
    with Stand(program) as stand:
        start(stand, college)
        with Clerk(stand, "anna", shots) as clerk:
            clerk.command("Emulation.setScrollbarsHidden", hidden=True)
            (stand.folder / "people.csv").write_text(college.newcomers(), encoding="utf-8")
            clerk.try_list("people", stand.folder / "people.csv")
            yield photographed(clerk.driver, "faults", DESK, "main")
            carry_out(stand, ask="do", lines=["open"])
            lists = base64.b64encode(college.lists().encode()).decode()
            carry_out(stand, ask="import", kind="choices", label="lists", body=lists)
            clerk.visit("/office/")
            yield photographed(clerk.driver, "overview", DESK, "main section:nth-of-type(2)")
            yield on_a_phone(stand, shots)
            carry_out(stand, ask="do", lines=["close"])
            clerk.visit("/office/draw")
            clerk.put("text", THROWS)
            clerk.press("Write the seed of this text")
            clerk.press("Yes: draw with this seed")
            carry_out(stand, ask="do", lines=["run"])
            clerk.visit("/office/results")
            yield photographed(clerk.driver, "results", DESK, "main section")


def make_pictures(program, folder):
    """Makes the pictures and the texts anew."""
    folder.mkdir(exist_ok=True)
    for picture in pictures_of(program, folder):
        data = small(picture.photograph)
        check(f"{picture.name} has {len(data):,} bytes", len(data) <= LARGEST)
        (folder / f"{picture.name}.png").write_bytes(data)
        (folder / f"{picture.name}.txt").write_text(picture.text + "\n", encoding="utf-8")


def try_pictures(program, shots):
    """Whether the pages have the texts that are kept with the pictures."""
    for picture in pictures_of(program, shots):
        (shots / f"picture-{picture.name}.png").write_bytes(picture.photograph)
        kept = (KEPT / f"{picture.name}.txt").read_text(encoding="utf-8").splitlines()
        changed = list(difflib.unified_diff(kept, picture.text.splitlines(), "picture", "page", n=0, lineterm=""))
        check(f"the picture {picture.name} shows what its page shows", not changed,
              f"look at the page, and make the pictures anew by {AGAIN}: {changed[:12]}")


if __name__ == "__main__":
    if len(sys.argv) != 3:
        sys.exit(f"usage: /usr/bin/python3 deploy/trial/pictures.py PROGRAM FOLDER, or {AGAIN}")
    if sys.argv[1] == "--make":
        make_pictures(sys.argv[2], KEPT)
    else:
        Path(sys.argv[2]).mkdir(parents=True, exist_ok=True)
        try_pictures(sys.argv[1], Path(sys.argv[2]))

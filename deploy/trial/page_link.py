"""The way of a key from a slip to the residents' page: /usr/bin/python3 deploy/trial/page_link.py PROGRAM FOLDER.

A clerk's browser shows the slip, a reader of another make (zbarimg) reads its picture, and a resident's browser opens the
link. The proxy writes down every request here, whole, with the page from which it came.
"""

import contextlib
import shutil
import sqlite3
import subprocess
import sys
from pathlib import Path

# The repository stays as it is.
sys.dont_write_bytecode = True

# pylint: disable=wrong-import-position  # nothing may be written before
from selenium.webdriver.common.keys import Keys

from office_browser import Clerk
from office_requests import Page as Requests
from page_browser import DESK, Page
from stand import HOST, Stand, check, key_of

# The mark by which Chromium's own file says that a visit is the last of its chain of redirects: only such a one is shown.
SHOWN = 0x20000000
FILLED = "The key of your link is filled in"
# Every request, with all of its address, and the field that says from which page it came.
LOGGED = (
    ("%HPO %HV", "%HU %HV %hr"),
    ("    acl is_request path /me ", "    http-request set-log-level notice\n    http-request capture req.hdr(Referer) len 200\n"
     "    acl is_request path /me "),
)


def slip_of(clerk, shots):
    """Makes a new key for T1, and gives the link in the picture on the slip."""
    clerk.visit("/office/person/T1/key")
    clerk.press("Yes: make a new key")
    clerk.reads("Sign in with it at https://")
    clerk.shot("30-slip")
    read = subprocess.run(["zbarimg", "--quiet", "--raw", shots / "office-30-slip-1280.png"], capture_output=True, text=True,
                          check=False)
    link = read.stdout.strip()
    check("a reader of another make finds the link on the slip", link.startswith(f"{clerk.base}/#"), read)
    key = link.partition("#")[2]
    check("with the key that stands beside it", " ".join(key[at:at + 4] for at in range(0, 32, 4)) in clerk.text())
    return link


def been_at(page):
    """The addresses to which the tab can go back."""
    entries = page.driver.execute_cdp_cmd("Page.getNavigationHistory", {})["entries"]
    return [entry["url"] for entry in entries]


def is_nowhere(page, key):
    """Whether the key is in no address of the tab."""
    return "#" not in page.driver.current_url and not [one for one in been_at(page) if key in one]


def try_open(page, link):
    """A resident opens the link."""
    key = link.partition("#")[2]
    page.driver.get(link)
    check("the link fills the key in", page.waits(lambda: FILLED in page.text("news")), page.text("news"))
    check("whole", page.element("key").get_property("value") == key)
    check("and the key is in no address any more", is_nowhere(page, key), been_at(page))
    check("nobody is signed in by that", page.element("sign-in").is_displayed() and page.kept() == [], page.kept())
    page.shot("18-link")
    page.keys(Keys.ENTER)
    check("Enter signs in", page.waits(lambda: "Tim Tan" in page.text("facts")), page.text("fault"))


def try_second(page, link):
    """Links that come while somebody is signed in."""
    own, other = link.partition("#")[2], key_of("T2")
    page.script("location.hash = arguments[0];", own)
    stays = page.waits(lambda: "Tim Tan" in page.text("facts") and "#" not in page.driver.current_url)
    check("one's own link leaves one signed in", stays and is_nowhere(page, own), been_at(page))
    page.script("location.hash = arguments[0];", other)
    check("another person's link signs out", page.waits(lambda: FILLED in page.text("news")) and page.kept() == ["rooms-draft"],
          page.kept())
    check("and fills in that key", page.element("key").get_property("value") == other and is_nowhere(page, other), been_at(page))
    page.driver.back()
    page.driver.forward()
    check("going back brings no key back", is_nowhere(page, other) and is_nowhere(page, own), been_at(page))
    page.open()
    page.script("location.hash = 'short';")
    gone = page.waits(lambda: "#" not in page.driver.current_url)
    check("what is no key goes out of the address, too", gone and page.element("key").get_property("value") == "")


def try_visited(stand, shots, link):
    """What a browser remembers of a link after its end."""
    with Page(stand, shots, "de") as page:
        page.driver.get(link)
        check("the link is read in German, too", page.waits(lambda: "aus Ihrem Link" in page.text("news")), page.text("news"))
    shown, on_disk = visited(stand.folder / "chromium-de-16")
    check("the browser shows the page among those that were visited", f"https://{HOST}:{stand.port}/" in shown, shown)
    check("but not the link", link not in shown, shown)
    check("though it has the link on its disk", link in on_disk, on_disk)


def visited(profile):
    """The addresses that the browser shows among the pages that were visited, and all that it has on its disk."""
    file = shutil.copy(profile / "Default" / "History", profile / "history.db")
    query = "SELECT url FROM urls WHERE id IN (SELECT url FROM visits WHERE transition & ? = ?)"
    with contextlib.closing(sqlite3.connect(file)) as database:
        return [[url for url, in database.execute(query, (mask, mask))] for mask in (SHOWN, 0)]


def try_link(program, shots):
    """From the slip to the list."""
    with Stand(program) as stand:
        for line in ("room A-1", f"person T1 {key_of('T1')} Tim Tan", f"person T2 {key_of('T2')} Tea Tal", "open"):
            stand.tell(line)
        stand.start()
        stand.start_page()
        stand.start_proxy(*LOGGED)
        with Clerk(stand, "anna", shots) as clerk:
            link = slip_of(clerk, shots)
        with Page(stand, shots) as page:
            page.width(*DESK)
            try_open(page, link)
            try_second(page, link)
        try_visited(stand, shots, link)
        keys = (link.partition("#")[2], key_of("T2"))
        Requests(stand).get(f"/?{keys[0]}", {"Referer": f"https://{HOST}/#{keys[1]}"})
        logged = stand.proxy_log()
        check("this trial finds keys in requests where they are", all(logged.count(key) == 1 for key in keys), logged[-1500:])
        check("and the residents' page is in the log", "GET https://" in logged and "/portal.js" in logged, logged[:1500])


if __name__ == "__main__":
    if len(sys.argv) != 3 or not Path(sys.argv[1]).exists():
        sys.exit("usage: /usr/bin/python3 deploy/trial/page_link.py PROGRAM FOLDER")
    Path(sys.argv[2]).mkdir(parents=True, exist_ok=True)
    try_link(sys.argv[1], Path(sys.argv[2]))

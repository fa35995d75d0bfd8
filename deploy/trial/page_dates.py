"""Until when lists are taken, from a clerk's browser to a resident's: /usr/bin/python3 deploy/trial/page_dates.py PROGRAM FOLDER.

The resident's computer is in another zone than the office, and reads the time of the office.
"""

import sys
from pathlib import Path

# The repository stays as it is.
sys.dont_write_bytecode = True

# pylint: disable=wrong-import-position  # nothing may be written before
from selenium.webdriver.common.by import By
from selenium.webdriver.support.select import Select

from office_browser import Clerk
from office_dates import ZONE
from page_browser import DESK, Page
from stand import DEPLOY, Stand, check, key_of, until

LINES = ["room N-101", "room N-102", f"person T1 {key_of('T1')} Tim Tan", "home T1 N-101", "open"]
NOTICE = '<p id="notice"><span lang="en">Of the administrator.</span></p>'


def clerk_sets(stand, shots):
    """A clerk sets a date on the overview."""
    with Clerk(stand, "anna", shots) as clerk:
        clerk.reads("No date is set. Residents read none")
        clerk.driver.find_element(By.CSS_SELECTOR, "#until summary").click()
        clerk.shot("50-no-date")
        clerk.driver.execute_script("document.getElementById('date').value = '2027-05-31';")
        clerk.tick("yes")
        clerk.press("Set the date")
        clerk.reads("The date is set. The keeper closes the round then.", f"2027-05-31, 12:00 ({ZONE})", "set by anna")
        clerk.driver.find_element(By.CSS_SELECTOR, "#until summary").click()
        clerk.shot("51-date")
        check("the browser complains of nothing", not clerk.complaints(), clerk.complaints())


def resident_reads(stand, shots):
    """A resident reads the date in their language, and in the zone of the office."""
    with Page(stand, shots) as page:
        page.width(*DESK)
        page.driver.execute_cdp_cmd("Emulation.setTimezoneOverride", {"timezoneId": "America/New_York"})
        page.open()
        page.waits(lambda: page.text("until") != "", 60)
        for language, parts in (("en", ("Lists are taken until Monday", "31 May 2027", "12:00", "CEST")),
                                ("de", ("angenommen bis Montag", "31. Mai 2027", "12:00", "MESZ"))):
            Select(page.element("language")).select_by_value(language)
            check(f"residents read the date: {parts}", all(part in page.text("until") for part in parts), page.text("until"))
        Select(page.element("language")).select_by_value("en")
        check("the administrator's notice stays below it", page.text("notice") == "Of the administrator.", page.text("notice"))
        page.shot("25-date")
        page.script("const now = Date.now; Date.now = () => now() + 1e12;")
        Select(page.element("language")).select_by_value("de")
        check("after that time the page says so", "waren bis Montag" in page.text("until"), page.text("until"))
        Select(page.element("language")).select_by_value("en")
        page.open()
        check("the date is there when signed in, too", page.sign_in(key_of("T1"), "Tim Tan")
              and page.waits(lambda: "31 May" in page.text("until"), 60), page.text("until"))
        stand.ask(ask="set-until", at="2027-03-01T12:00", closes=True, who="anna")
        page.click("ask-again")
        check("a new date is read once the page asks again", page.waits(lambda: "1 March 2027" in page.text("until"), 60),
              page.text("until"))
        stand.office("close")
        until(lambda: stand.ask(ask="view")["until"]["until"] is None, 60, "the date is forgotten")
        page.click("ask-again")
        check("once the round is closed no date is read", page.waits(lambda: not page.element("until").is_displayed(), 60),
              page.text("until"))


def try_page_dates(program, shots):
    """From the clerk to the resident."""
    with Stand(program, TZ=ZONE) as stand:
        for line in LINES:
            stand.tell(line)
        stand.start()
        stand.start_page()
        stand.start_told()
        index = stand.folder / "index.html"
        text = (DEPLOY / "portal" / "index.html").read_text(encoding="utf-8")
        index.write_text(text.replace('<p id="notice"></p>', NOTICE), encoding="utf-8")
        stand.start_proxy(("/srv/rooms/portal/index.html", str(index)))
        clerk_sets(stand, shots)
        resident_reads(stand, shots)


if __name__ == "__main__":
    if len(sys.argv) != 3 or not Path(sys.argv[1]).exists():
        sys.exit("usage: /usr/bin/python3 deploy/trial/page_dates.py PROGRAM FOLDER")
    Path(sys.argv[2]).mkdir(parents=True, exist_ok=True)
    try_page_dates(sys.argv[1], Path(sys.argv[2]))

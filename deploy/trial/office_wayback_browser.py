"""The way back for a leaver, those who left, and a second round, in a browser: /usr/bin/python3
deploy/trial/office_wayback_browser.py PROGRAM FOLDER.

What each step does to the office, `office_wayback.py` tries. Here a clerk without scripts finds the way by what the pages
offer, and the folder gets the photographs.
"""

import sys
from pathlib import Path

# The repository stays as it is.
sys.dont_write_bytecode = True

# pylint: disable=wrong-import-position  # nothing may be written before
from selenium.webdriver.common.by import By

from office_browser import Clerk
from office_second import away, fill, finish_round
from stand import Stand, check


def ticked(clerk):
    """The values of the boxes that are ticked."""
    return [one.get_attribute("value") for one in clerk.driver.find_elements(By.CSS_SELECTOR, "input[type=checkbox]")
            if one.is_selected()]


def note_by_mistake(clerk, stand):
    """P01 is noted to leave. The browser holds the form back until the box is ticked."""
    clerk.visit("/office/person/P01")
    clerk.press("Leaves the college")
    clerk.reads("I have checked that this is the right person: Person P01, identifier P01, who lives in A-101.")
    clerk.shot("40-asked-twice")
    clerk.driver.find_element(By.XPATH, "//button[contains(.,'Yes: leaves')]").click()
    check("without the tick the browser sends nothing", "/going" in clerk.driver.current_url and away(stand)[0] == {"P02"})
    clerk.tick()
    clerk.press("Yes: leaves the college")
    clerk.reads("no, leaves the college")


def undo(clerk, stand):
    """The long way, by pressing what the pages offer."""
    clerk.press("Undo the note that they leave")
    clerk.reads("There are three ways", "This is the shortest way")
    clerk.shot("41-undo")
    clerk.visit("/office/step/cancel")
    clerk.reads("Have withdrawn", "Leave the college", "P03 Person P03, A-103")
    clerk.shot("42-give-up")
    clerk.press("No, go back")
    clerk.visit("/office/undo/P01")
    clerk.tick()
    clerk.press("Give round 1 up")
    clerk.reads("Step 2 of 3")
    clerk.shot("43-open")
    clerk.press("Open the next round")
    clerk.reads("Step 3 of 3")
    clerk.visit("/office/")
    clerk.reads("From round 1, which was given up")
    clerk.shot("44-not-back")
    clerk.visit("/office/undo/P01")
    clerk.press("See what can come back")
    check("P01 alone is not ticked", ticked(clerk) == ["P02", "P03", "P01", "P09"], ticked(clerk))
    clerk.shot("45-back")
    clerk.driver.find_element(By.CSS_SELECTOR, "input[name=lists][value=yes]").click()
    clerk.tick()
    clerk.press("Bring this back")
    clerk.reads("Back in this round: lists: 2 of 2, who leaves the college: 1 of 1, withdrawals: 1 of 1.")
    clerk.reads("All else is back.")
    clerk.shot("46-came-back")
    check("they are back, but for P01", away(stand) == ({"P02"}, {"P03"}), away(stand))
    clerk.visit("/office/undo/P01")
    clerk.reads("It is undone")
    clerk.shot("47-undone")


def go_on(clerk, stand):
    """Who left is removed, and a second round begins."""
    finish_round(stand)
    stand.office("settle")
    clerk.visit("/office/")
    clerk.reads("Left the college in round 2: 1", "Without a room: 3")
    clerk.shot("48-settled")
    clerk.press("Remove those who left")
    check("who left is ticked", ticked(clerk) == ["P02"], ticked(clerk))
    clerk.shot("49-left")
    clerk.press("Show who is removed")
    clerk.press("Yes: remove them from the register")
    clerk.reads("Done for one person.")
    clerk.visit("/office/")
    clerk.press("A second round")
    clerk.reads("3 people have no room, and 4 rooms are free.", "Now: tell")
    clerk.shot("50-second")
    clerk.press("Open the next round")
    clerk.press("Yes: open the next round")
    clerk.press("what comes next in it")
    clerk.reads("Now: wait", "0 of 3 people without a room have a list on record")
    clerk.shot("51-second-open")
    clerk.press("Show who they are")
    clerk.reads("Withdraw them from the round: 8 people", "the right people")
    clerk.shot("52-withdraw-many")


def try_office_wayback_browser(program, folder):
    """All of it."""
    with Stand(program) as stand:
        fill(stand)
        stand.start()
        stand.start_page()
        stand.start_proxy()
        for line in ("open", "choose P01 A-110", "choose P09 A-112", "withdraw P03", "going P02"):
            stand.office(line)
        with Clerk(stand, "anna", folder) as clerk:
            note_by_mistake(clerk, stand)
            undo(clerk, stand)
            go_on(clerk, stand)
            check("the browser found nothing wrong", not clerk.complaints(), clerk.complaints())
        check("the page has noted no fault of its own", "rooms-page:" not in stand.log("page"), stand.log("page"))


if __name__ == "__main__":
    if len(sys.argv) != 3 or not Path(sys.argv[1]).exists():
        sys.exit("usage: /usr/bin/python3 deploy/trial/office_wayback_browser.py PROGRAM FOLDER")
    Path(sys.argv[2]).mkdir(parents=True, exist_ok=True)
    try_office_wayback_browser(sys.argv[1], Path(sys.argv[2]))

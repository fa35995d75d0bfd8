"""What residents read of rooms, from a clerk's browser to a resident's phone: /usr/bin/python3 deploy/trial/page_told.py PROGRAM
FOLDER.

A clerk writes the notice, sends descriptions and pictures. A resident chooses by house, rent and what is free, and looks at
the pictures. An index.html of an earlier version, and a damaged file of texts, hinder nobody.
"""

import re
import sys
from pathlib import Path
from typing import Any

# The repository stays as it is.
sys.dont_write_bytecode = True

# pylint: disable=wrong-import-position  # nothing may be written before
from selenium.webdriver.common.by import By
from selenium.webdriver.support.select import Select

import some_pictures
from office_browser import Clerk
from page_browser import DESK, PHONE, Page
from page_looks import contrast, tree
from stand import DEPLOY, Stand, check, key_of, until

PLACE = "/office/told"
ROOMS = [*(f"N-10{n}" for n in range(1, 10)), *(f"S-20{n}" for n in range(1, 6)), "OLD-1"]
LINES = [*(f"room {code}" for code in ROOMS), f"person T1 {key_of('T1')} Tim Tan", f"person T2 {key_of('T2')} Tea Tal",
         "home T1 N-101", "home T2 S-202", "open"]
LIST = ("room;house;floor;size;rent;text\n"
        "N-101;North;0;14;380;Next to the kitchen\nN-102;North;1;14,5;412,50 €;Balcony to the garden, and a desk\n"
        "N-103;North;1;18 m²;455 €;\nN-104;North;ground floor;18 m²;455 €;<b>Bold</b>\n"
        "S-201;South;2;12 m²;350 €;Quiet\nS-202;South;2;12 m²;350 €;Quiet\nS-203;South;3;20 m²;;Kitchen of its own\n")
# The administrator's file says something of two rooms, of one of which the clerk says something too.
FILE = "room;house\nN-102;of the administrator\nS-205;of the administrator\n"
NOTICE = '<p id="notice"><span lang="en">Of the administrator.</span></p>'


def clerk_writes(stand, shots):
    """All of it, in a clerk's browser."""
    (stand.folder / "rooms.csv").write_text(LIST, encoding="utf-8")
    (stand.folder / "N-102.jpg").write_bytes(some_pictures.of_camera())
    (stand.folder / "N-102-plan.png").write_bytes(some_pictures.drawn("PNG"))
    (stand.folder / "S-201.webp").write_bytes(b"no picture")
    with Clerk(stand, "anna", shots) as clerk:
        clerk.visit(PLACE)
        clerk.put("notice-en", "Lists are taken until 31 May, noon.\nThe order is drawn that evening.")
        clerk.put("notice-de", "Wunschlisten bis 31. Mai, 12 Uhr.")
        clerk.put("contact", "rooms@college.example")
        clerk.press("Put them on the residents' page")
        clerk.reads("The notice and the contact are on the residents' page.")
        clerk.driver.find_element(By.ID, "list").send_keys(str(stand.folder / "rooms.csv"))
        clerk.press("Look at the list")
        clerk.reads("has a description of 7 rooms", "8 rooms of the register have no description in this list", "412.50")
        clerk.shot("40-descriptions")
        clerk.tick()
        clerk.press("Put them on the residents' page")
        clerk.reads("The descriptions of 7 rooms are on the residents' page.")
        files = [str(stand.folder / name) for name in ("N-102.jpg", "N-102-plan.png", "S-201.webp")]
        clerk.driver.find_element(By.ID, "pictures").send_keys("\n".join(files))
        clerk.press("Add the pictures")
        clerk.reads("S-201.webp was not added: this is no picture", "2 pictures are on the residents' page.")
        clerk.shot("41-told")
        clerk.press("N-102")
        loaded = clerk.driver.execute_script("return [...document.images].map(one => one.naturalWidth);")
        check("the clerk sees the pictures", loaded == [960, 300], loaded)
        clerk.shot("42-room")
        clerk.visit(PLACE)
        clerk.driver.find_element(By.ID, "list").send_keys(str(stand.folder / "N-102.jpg"))
        clerk.press("Look at the list")
        clerk.shot("43-no-list")
        check("the browser complains of nothing", not clerk.complaints(), clerk.complaints())


def notice(page):
    """The notice is read in the language of the page, before anybody signs in."""
    page.open()
    english = "Lists are taken until 31 May, noon.\nThe order is drawn that evening.\nQuestions: rooms@college.example"
    check("the clerk's notice stands in place of the administrator's", page.waits(lambda: page.text("notice") == english),
          page.text("notice"))
    page.shot("20-notice")
    Select(page.element("language")).select_by_value("de")
    german = "Wunschlisten bis 31. Mai, 12 Uhr.\nFragen: rooms@college.example"
    check("in German too", page.text("notice") == german, page.text("notice"))
    Select(page.element("language")).select_by_value("en")


def described(page):
    """What stands beside a room."""
    page.sign_in(key_of("T1"), "Tim Tan")
    page.waits(lambda: "Balcony" in page.text("rooms"))
    about = page.text("rooms")
    for text in ("North, floor 0, 14 m², 380\nNext to the kitchen", "North, floor 1, 14,5 m², 412,50 €\nBalcony to the garden",
                 "North, ground floor, 18 m², 455 €\n<b>Bold</b>", "house of the administrator"):
        check(f"beside a room stands {text!r}", text in about, about)
    check("what the clerk says counts before the administrator's file", about.count("of the administrator") == 1, about)
    page.find("balcony desk")
    check("residents find a room by these words", page.offered() == ["N-102"], page.offered())
    page.find("")


def found(page, house="", rent="", free=False):
    """The rooms that are offered for this."""
    Select(page.element("house")).select_by_value(house)
    page.element("rent").clear()
    page.element("rent").send_keys(rent or " ")
    if page.element("free").is_selected() != free:
        page.element("free").click()
    return page.offered()


def filters(page):
    """Residents choose by house, by what is free, and up to a rent, on a phone too."""
    houses = [one.text for one in Select(page.element("house")).options]
    check("the houses can be chosen", houses == ["All houses", "North", "South"], houses)
    north, south = ["N-101", "N-102", "N-103", "N-104"], ["S-201", "S-202", "S-203"]
    for size in (PHONE, DESK):
        page.width(*size)
        cases: tuple[tuple[dict[str, Any], list[str]], ...] = (
            ({"house": "North"}, north), ({"house": "South"}, south), ({"house": "South", "free": True}, ["S-201", "S-203"]),
            ({"rent": "380"}, ["N-101", "S-201", "S-202"]), ({"rent": "412,49 €"}, ["N-101", "S-201", "S-202"]),
            ({"rent": "412.50", "house": "North"}, north[:2]), ({"rent": "1.000", "house": "North", "free": True}, north[1:]),
            ({"rent": "10"}, []), ({}, sorted(ROOMS)),
        )
        for wanted, rooms in cases:
            check(f"{wanted} at {size[0]} pixels gives {rooms}", sorted(found(page, **wanted)) == rooms, page.offered())
    check("what is no rent is said, and leaves nothing out", len(found(page, rent="cheap")) == len(ROOMS)
          and "no amount" in page.text("rent-hint") and page.element("rent").get_attribute("aria-invalid") == "true")
    found(page, rent="400", house="North")
    check("the count says so", page.text("count") == f"Rooms found: 1 of {len(ROOMS)}.", page.text("count"))
    contrast(page, "filters")
    tree(page, "filters", [1, 2, 3, 2, 2, 2, 2])
    page.shot("21-filters")
    found(page)


def pictures(page):
    """Pictures are there when they are opened, and not before."""
    check("the browser has asked for no picture", page.elements("#rooms img") == [])
    page.width(*PHONE)
    page.find("N-102")
    summary = page.elements("#rooms summary")
    check("a room says how many pictures it has", [one.text for one in summary] == ["Pictures of N-102: 2"], page.text("rooms"))
    page.press_element(summary[0])
    shown = page.waits(lambda: page.script("return [...document.images].map(one => one.naturalWidth);") == [960, 300])
    alts = page.script("return [...document.images].map(one => one.alt);")
    check("opened, they are shown, and named", shown and alts == [f"Picture {n} of room N-102" for n in (1, 2)], alts)
    page.press("add", "N-102")
    check("they stay open when the room is added", len(page.elements("#rooms img")) == 2)
    page.shot("22-pictures")
    page.press_element(page.elements("#rooms summary")[0])
    page.find("")
    page.click("undo")
    found(page, house="North")
    page.sign_out()
    page.sign_in(key_of("T2"), "Tea Tal")
    check("whoever signs in next begins with all rooms", len(page.offered()) == len(ROOMS), page.offered())
    page.sign_out()


def damaged(page, stand):
    """Texts that are damaged, and a server that is away, hinder nobody."""
    texts = stand.folder / "told" / "told.json.gz"
    kept = texts.read_bytes()
    texts.write_bytes(kept[:50])
    page.open()
    check("with damaged texts the administrator's notice is there", page.text("notice") == "Of the administrator.")
    check("and residents sign in", page.sign_in(key_of("T1"), "Tim Tan") and len(page.offered()) == len(ROOMS))
    check("without filters", not page.element("filters").is_displayed())
    page.sign_out()
    texts.write_bytes(kept)
    stand.end(stand.told)
    page.open()
    check("without the server of the texts too", page.sign_in(key_of("T1"), "Tim Tan") and len(page.offered()) == len(ROOMS))
    page.sign_out()
    stand.start_told()


def earlier_page(stand, shots):
    """A college that keeps its index.html of an earlier version."""
    text = (DEPLOY / "portal" / "index.html").read_text(encoding="utf-8")
    earlier = re.sub(r'<div id="filters".*?</div>', "", text, flags=re.DOTALL)
    stand.end(stand.proxy)
    (stand.folder / "earlier.html").write_text(earlier, encoding="utf-8")
    stand.start_proxy(("/srv/rooms/portal/index.html", str(stand.folder / "earlier.html")))
    with Page(stand, shots, "en-GB") as page:
        page.open()
        check("with an earlier index.html residents sign in", "filters" not in earlier and page.sign_in(key_of("T1"), "Tim Tan"))
        check("and read what the clerks say", page.waits(lambda: "Balcony" in page.text("rooms")), page.text("rooms"))
        page.sign_out()
        odd = [entry["message"] for entry in page.driver.get_log("browser")]
        check("the browser complains of nothing", not odd, odd)


def comes_to(page, text):
    """Opens the page until the notice has a text: a server that was started just now may not answer yet."""
    for _ in range(10):
        page.open()
        if page.waits(lambda: text in page.text("notice"), 2):
            return True
    return False


def signs_in_to(page, text):
    """Whether the page that is open has this notice once somebody has signed in."""
    page.sign_in(key_of("T1"), "Tim Tan")
    is_there = page.waits(lambda: page.text("notice") == text, 2)
    if not is_there:
        page.sign_out()
    return is_there


def taken_away(page, stand):
    """The clerk takes the notice away: a page that is open has it no more, once it asks the server for anything."""
    check("a page is open with the notice", comes_to(page, "31 May"), page.text("notice"))
    answer = stand.ask(ask="tell-words", notice={}, contact="")
    check("the clerk takes it away", "fault" not in answer, answer)
    stand.end(stand.told)
    check("as long as what the clerks say cannot be had, the page has what it knows", page.sign_in(key_of("T1"), "Tim Tan")
          and "31 May" in page.text("notice"), page.text("notice"))
    page.sign_out()
    stand.start_told()
    until(lambda: signs_in_to(page, "Of the administrator."), 60, "the administrator's notice in the page that stayed open")
    Select(page.element("language")).select_by_value("de")
    check("in any language", page.text("notice") == "Of the administrator.", page.text("notice"))
    Select(page.element("language")).select_by_value("en")
    page.sign_out()


def nothing_odd(page):
    """What the browser has written down."""
    logged = [entry["message"] for entry in page.driver.get_log("browser")]
    odd = [line for line in logged if not re.search("Failed to load resource|ERR_|beforeunload", line)]
    check("the browser reports nothing but failed requests", not odd, odd)


def try_page_told(program, shots):
    """From the clerk to the resident."""
    with Stand(program) as stand:
        for line in LINES:
            stand.tell(line)
        stand.start()
        stand.start_page()
        stand.start_told()
        index, rooms = stand.folder / "index.html", stand.folder / "of-the-administrator.csv"
        text = (DEPLOY / "portal" / "index.html").read_text(encoding="utf-8")
        index.write_text(text.replace('<p id="notice"></p>', NOTICE), encoding="utf-8")
        rooms.write_text(FILE, encoding="utf-8")
        stand.start_proxy(("/srv/rooms/portal/index.html", str(index)), ("/srv/rooms/portal/rooms.csv", str(rooms)))
        clerk_writes(stand, shots)
        with Page(stand, shots) as page:
            page.width(*DESK)
            notice(page)
            described(page)
            filters(page)
            pictures(page)
            damaged(page, stand)
            taken_away(page, stand)
            nothing_odd(page)
        earlier_page(stand, shots)


if __name__ == "__main__":
    if len(sys.argv) != 3 or not Path(sys.argv[1]).exists():
        sys.exit("usage: /usr/bin/python3 deploy/trial/page_told.py PROGRAM FOLDER")
    Path(sys.argv[2]).mkdir(parents=True, exist_ok=True)
    try_page_told(sys.argv[1], Path(sys.argv[2]))

"""The portal page in headless Chromium, through the proxy, against the real server: a round as residents go through it.

For faults that neither server nor proxy can be made to report at will, the browser replaces the server's answer.
"""

import json
import re
import time
from pathlib import Path

from selenium.webdriver.common.action_chains import ActionChains
from selenium.webdriver.common.keys import Keys

from page_browser import DESK, Page
from page_idle import try_idle
from page_lists import Device, try_lists
from page_looks import try_looks
from stand import DEPLOY, Stand, check, key_of

LINES = [
    "room H1", "room H2", "room H3", "room OLD-1", "room V", "room W", *(f"room A-{n}" for n in range(1, 46)),
    "person T1 key00000000000t1 Tim Tan", "person T2 key00000000000t2 Tom Tao", "person T3 key00000000000t3 Tea Tal",
    "person N key000000000000n Nia Ng", "person M key000000000000m Max Mai",
    "home T1 H1", "home T2 H2", "home T3 H3", "shut OLD-1", "open",
]
NOTICE = '<p id="notice"><span lang="en">Until 31 May, noon.</span><span lang="de">Bis 31. Mai, 12 Uhr.</span></p>'
ROOMS = 'room;house;floor;size\nA-1;North;2;14 m²\nA-2;"South; by the ""Green""";0;\nXX-9;nowhere;;\n'
# What the page says of a fault, by its status and its name.
FAULTS = [
    (400, "BadRequest", "did not understand"),
    (404, "NotFound", "does not fit"),
    (405, "MethodNotAllowed", "does not fit"),
    (408, "", "too slow"),
    (413, "ContentTooLarge", "too long"),
    (422, "TooManyChoices", "more than 40"),
    (422, "RoomRepeated", "twice"),
    (422, "UnknownRoom", "no longer known"),
    (409, "Going", "that you leave the college"),
    (429, "TooManyRequests", "wait a minute"),
    (503, "Unavailable", "try again in a few minutes"),
    (502, "", "not known whether"),
    (503, "", "not known whether"),
    (504, "", "not known whether"),
    (0, "", "not known whether"),
]
FAULTY_FETCH = """
    const real = window.fetch;
    window.fetch = (path, options) => {
        const fault = window.fault;
        if (options.method !== "PUT" || !fault) return real(path, options);
        window.fault = null;
        if (!fault.status) return Promise.reject(new Error());
        return Promise.resolve(new Response(fault.body, { status: fault.status }));
    };"""


def signing_in(page: Page) -> None:
    """The key, and what the page says of a wrong one."""
    page.width(*DESK)
    page.open()
    check("the focus starts in the key", page.focus() == "key", page.focus())
    check("the college's notice is shown", page.text("notice") == "Until 31 May, noon.", page.text("notice"))
    page.shot("1-sign-in")
    page.enter_key("BAD")
    check("a text that is no key is explained", "16 to 64" in page.text("fault"), page.text("fault"))
    page.enter_key("key0000000000bad")
    told = page.waits(lambda: "not known" in page.text("fault"))
    check("a key of nobody is explained", told and page.focus() == "key", page.text("fault"))
    is_in = page.sign_in(" Key0 0000-0000 00T1 ", "Tim Tan")
    check("signed in by the keyboard, with spaces, hyphens and capitals", is_in, page.text("fault"))
    check("the focus goes to the heading", page.focus() == "round-heading", page.focus())
    check("the key is in no address and is not kept for good",
          "key0" not in page.driver.current_url and page.script("return localStorage.length;") == 0)
    page.find("old-1")
    shut, text = page.elements('[data-act=add][data-code="OLD-1"]'), page.text("rooms")
    check("a shut room is shown and can't be added", "OLD-1\nshut" in text and not shut, text)


def list_by_keyboard(page: Page) -> None:
    """A list that is made by keys alone."""
    page.find("v")
    found = page.waits(lambda: page.offered()[-1:] == ["V"])
    check("rooms are found by a part of what is there", found, page.offered())
    check("Tab leads to adding V", page.tab_to("Add room V"))
    page.keys(Keys.ENTER)
    is_added = page.codes() == ["V"]
    check("V is added, and the focus goes on to handing in", is_added and page.focus() == "hand-in", page.focus())
    check("the place is said", "V is number 1 of 1" in page.text("news"), page.text("news"))
    page.find("h")
    check("Tab leads to adding H2", page.tab_to("Add room H2"))
    page.keys(Keys.SPACE)
    check("the space bar adds too, and the focus is at the next", page.focus() == "Add room H3", page.focus())
    page.find("w")
    check("Tab leads to adding W", page.tab_to("Add room W"))
    page.keys(Keys.ENTER)
    check("it is said that the list is not handed in", "Not handed in" in page.text("state"))
    check("Tab leads to moving H2 up", page.tab_to("Move H2 up"))
    ActionChains(page.driver).key_down(Keys.ALT).send_keys(Keys.ARROW_UP).key_up(Keys.ALT).perform()
    check("Alt and the arrow move it", page.codes() == ["H2", "V", "W"] and page.focus() == "Move H2 up", page.codes())
    page.keys(Keys.ENTER)
    check("at the top the button leaves it there", page.codes() == ["H2", "V", "W"], page.codes())
    check("Tab leads to moving V down", page.tab_to("Move V down"))
    page.keys(Keys.ENTER)
    check("it goes down", page.codes() == ["H2", "W", "V"] and page.focus() == "Move V down", page.codes())
    check("Tab leads to removing V", page.tab_to("Remove V", 5))
    page.keys(Keys.ENTER)
    check("it is removed", page.codes() == ["H2", "W"], page.codes())
    check("the focus is at the last", page.focus() == "Remove W", page.focus())


def handing_in(page: Page) -> None:
    """The list goes to the server."""
    page.add("H1", "A-1")
    text = page.text("list")
    check("what comes after the own room is explained", "your room" in text and "does not count" in text, text)
    page.shot("2-list")
    page.script("document.getElementById('hand-in').focus();")
    page.keys(Keys.ENTER)
    handed = page.waits(lambda: page.text("news").startswith("Handed in. On record: H2, W, H1, A-1"))
    check("handed in", handed, page.text("news"))
    check("the focus stays on the button", page.focus() == "hand-in", page.focus())
    page.open()
    check("a page that is loaded again shows what is on record",
          page.waits(lambda: page.text("record") == "H2, W, H1, A-1" and page.codes() == ["H2", "W", "H1", "A-1"]))


def withdrawal_refused(page: Page) -> None:
    """The question before a withdrawal, answered by no."""
    text = page.text("withdraw-text")
    check("how it differs from an empty list is said", "need not withdraw to keep your room" in text, text)
    page.click("withdraw")
    check("a question is asked first, and the focus is on no", page.waits(lambda: page.focus() == "stay"), page.focus())
    text = page.text("question-text")
    check("it says what becomes of the room", "You keep room H1." in text, text)
    page.shot("3-question")
    page.keys(Keys.ESCAPE)
    stays = page.waits(lambda: "still in" in page.text("news"))
    check("Escape is no", stays and page.focus() == "withdraw", page.focus())
    page.click("withdraw")
    page.waits(lambda: page.focus() == "stay")
    page.keys(Keys.ENTER)
    check("no is no", page.waits(lambda: "still in" in page.text("news") and "yes" in page.text("facts")))


def forced_faults(page: Page) -> None:
    """Each fault of a list, as if the server or the proxy had answered so."""
    page.script(FAULTY_FETCH)
    page.add("A-2")
    for status, name, said in FAULTS:
        body = json.dumps({"error": name}) if name else "<html>the proxy</html>"
        page.script("window.fault = arguments[0];", {"status": status, "body": body})
        page.click("hand-in")
        told = page.is_told(said)
        check(f"{status or 'no answer'} {name} is explained", told, page.text("fault"))
        check(f"{status or 'no answer'} {name} leaves the list in the page", "A-2" in page.codes())
    page.shot("4-unknown")


def real_faults(page: Page, stand: Stand) -> None:
    """A room that is shut meanwhile, and a network that is gone."""
    stand.office("shut W")
    page.click("hand-in")
    told = page.waits(lambda: "has been shut" in page.text("fault"))
    check("a room that was shut is explained", told, page.text("fault"))
    check("it is marked, and the list kept", "W\nshut: remove it" in page.text("list") and "A-2" in page.codes())
    page.shot("5-shut")
    page.press("remove", "W")
    network = {"latency": 0, "downloadThroughput": -1, "uploadThroughput": -1}
    page.driver.execute_cdp_cmd("Network.enable", {})
    page.driver.execute_cdp_cmd("Network.emulateNetworkConditions", {**network, "offline": True})
    page.click("hand-in")
    told = page.waits(lambda: "can't be reached" in page.text("fault") and "Nothing was changed" in page.text("fault"))
    check("without a network nothing was sent, and that is said", told, page.text("fault"))
    page.driver.execute_cdp_cmd("Network.emulateNetworkConditions", {**network, "offline": False})


def server_away(page: Page, stand: Stand) -> None:
    """A server that comes back in time, and one that is away for longer than the proxy waits."""
    page.add("A-3")
    stand.kill()
    check("a server that is started again is not noticed", page.hand_in(20), page.text("fault"))
    page.add("A-4")
    stand.stop_keeper()
    began = time.monotonic()
    page.click("hand-in")
    gone = page.waits(lambda: "busy or is being" in page.text("fault") and "Nothing was" in page.text("fault"), 60)
    check("a server that stays away is explained", gone, page.text("fault"))
    print(f"      after {time.monotonic() - began:.0f} seconds")
    stand.start()
    page.click("ask-again")
    back = page.waits(lambda: "still here" in page.text("news"), 30)
    check("once it is back, the list in the page is kept", back and "A-4" in page.codes(), page.codes())
    check("and handed in", page.hand_in(), page.text("fault"))


def withdrawal(page: Page, stand: Stand) -> None:
    """Residents who withdraw: one with a room, one without, and one whom the office withdraws."""
    page.click("withdraw")
    page.waits(lambda: page.focus() == "stay")
    page.keys(Keys.TAB, Keys.ENTER)
    gone = page.waits(lambda: "have withdrawn" in page.text("news"))
    check("withdrawn", gone and not page.element("edit").is_displayed(), page.text("news"))
    text = page.text("result")
    check("and reads what that means", text == "You have withdrawn: you keep room H1.", text)
    check("and not that the list can be changed", "can change" not in page.text("facts"), page.text("facts"))
    page.shot("6-withdrawn")
    page.sign_out()
    is_out = page.waits(lambda: page.element("sign-in").is_displayed())
    check("signed out, and nothing is kept", is_out and page.kept() == [], page.kept())
    page.sign_in("key000000000000m", "Max Mai")
    page.click("withdraw")
    page.waits(lambda: page.focus() == "stay")
    check("a resident without a room reads that there will be none", "You get no room in it." in page.text("question-text"))
    page.keys(Keys.ESCAPE)
    page.sign_out()
    page.sign_in("key00000000000t2", "Tom Tao")
    page.add("V")
    stand.office("withdraw T2")
    page.click("hand-in")
    told = page.waits(lambda: "You have withdrawn" in page.text("fault"))
    check("a withdrawal elsewhere is explained", told, page.text("fault"))
    check("and the page is as it holds now", not page.element("edit").is_displayed())
    page.sign_out()


def is_closed_to_leaver(page: Page) -> bool:
    """Whether the page shows no editing, and no way to withdraw."""
    return not page.element("edit").is_displayed() and not page.element("withdraw").is_displayed()


def leaving(page: Page, stand: Stand) -> None:
    """The office notes that a resident leaves the college, while a list that was begun is on another device."""
    page.sign_in(key_of("T3"), "Tea Tal")
    page.add("A-9")
    check("who takes part hands in", page.hand_in(), page.text("fault"))
    with Page(stand, page.shots, "de") as other:
        other.width(*DESK)
        other.open()
        other.sign_in(key_of("T3"), "Tea Tal")
        other.add("A-10")
        page.add("A-12")
        stand.office("going T3")
        page.click("ask-again")
        told = page.waits(lambda: "no, you leave the college" in page.text("facts"))
        check("a resident who leaves the college reads that they take no part", told, page.text("facts"))
        text = page.text("news")
        check("and, in a round that is open, not that a list that was begun came too late",
              text.startswith("The list that you had begun was not handed in, and can no longer be."), text)
        text = page.text("result")
        check("and what becomes of their room", text == "You leave the college: room H3 is given out in this round, "
              "and you move out at its end.", text)
        check("and to whom to turn if it is not so", "do not leave the college after all" in page.text("next"))
        check("no list of theirs counts", page.text("record") == "You leave the college, so no list counts.")
        check("and nothing can be changed", is_closed_to_leaver(page) and "can change" not in page.text("facts"))
        page.shot("14-leaves")
        other.click("hand-in")
        told = other.is_told("vermerkt, dass Sie ausziehen, deshalb lässt sich die Liste nicht ändern.")
        check("a list that was begun is answered by that", told, other.text("fault"))
        is_shown = is_closed_to_leaver(other) and "ziehen aus dem Wohnheim aus" in other.text("result")
        check("and the page is as it holds now", is_shown, other.text("result"))
        other.shot("15-german-leaves")
    try:
        Device(stand, "T3").hand_in("A-11")
        check("the server takes no list of theirs", False)
    except ValueError as answer:
        check("the server takes no list of theirs", "409 {'error': 'Going'}" in str(answer), answer)
    page.sign_out()


def left(page: Page) -> None:
    """After the round, who has left the college has no room."""
    page.sign_out()
    page.sign_in(key_of("T3"), "Tea Tal")
    check("who has left has no room", "H3" not in page.text("facts") and page.text("result") == "", page.text("facts"))
    check("and reads so", "no room at present" in page.text("next"), page.text("next"))


def closing_and_result(page: Page, stand: Stand) -> None:
    """From the end of the round to its result."""
    page.sign_in("key000000000000n", "Nia Ng")
    page.add("A-7")
    check("a newcomer hands in", page.hand_in())
    page.add("A-8")
    stand.office("close")
    page.click("hand-in")
    told = page.waits(lambda: "not open now" in page.text("fault"))
    check("a round that was closed is explained", told, page.text("fault"))
    check("lists are fixed now", not page.element("edit").is_displayed() and "Closed" in page.text("facts"))
    check("what is on record is shown", page.text("record") == "A-7", page.text("record"))
    for line in ("draw 0000000000000001 0000000000000002", "run"):
        stand.office(line)
    page.click("ask-again")
    check("no result before it is published",
          page.waits(lambda: "worked out" in page.text("facts")) and page.text("result") == "")
    stand.office("publish")
    page.click("ask-again")
    check("the result", page.waits(lambda: page.text("result") == "Result: you get room A-7."), page.text("result"))
    check("and what comes next", "when you move" in page.text("next"), page.text("next"))
    page.shot("7-result")
    page.sign_out()
    page.sign_in("key000000000000m", "Max Mai")
    check("a result without a room", page.text("result") == "Result: you get no room.", page.text("result"))
    check("says what to do", "speak to the accommodation office" in page.text("next"), page.text("next"))
    page.shot("8-no-room")
    stand.office("settle")
    page.click("ask-again")
    check("after the round there is still something to do",
          page.waits(lambda: "no room at present" in page.text("next")) and not page.element("recorded").is_displayed())


def given_up(page: Page, stand: Stand) -> None:
    """The office gives a round up, and opens the next one, while a list was begun that is not handed in."""
    page.sign_out()
    stand.office("open")
    page.sign_in(key_of("N"), "Nia Ng")
    page.add("A-8", "A-9")
    for line in ("cancel", "open"):
        stand.office(line)
    page.click("ask-again")
    is_there = page.waits(lambda: "still here" in page.text("news")) and page.codes() == ["A-8", "A-9"]
    check("a list that was begun is not lost with a round that is given up", is_there, (page.text("news"), page.codes()))
    for line in ("cancel", "open"):
        stand.office(line)
    check("and is handed in in the round that is open", page.hand_in() and page.text("record") == "A-8, A-9", page.text("news"))
    page.add("A-10")
    for line in ("cancel", "open", "choose N A-11"):
        stand.office(line)
    page.click("hand-in")
    check("but in the place of no list of that round unasked", page.waits(lambda: page.focus() == "later"), page.focus())
    page.keys(Keys.ESCAPE)
    page.sign_out()


def nothing_odd(page: Page, stand: Stand) -> None:
    """What the browser and the proxy have written down."""
    logged = [entry["message"] for entry in page.driver.get_log("browser")]
    # A list that was begun asks before the tab is left; a driven browser, where nobody has clicked, reports that it does not.
    expected = "Failed to load resource|ERR_|Blocked attempt to show a 'beforeunload' confirmation panel"
    odd = [line for line in logged if not re.search(expected, line)]
    check("the browser reports nothing but failed requests", not odd, odd)
    check("no log of the proxy has a key", "key0" not in stand.proxy_log())


def start_proxy(stand: Stand) -> None:
    """Starts the proxy over a page to which a college has given a notice and what it says of rooms."""
    index, rooms = stand.folder / "index.html", stand.folder / "rooms.csv"
    text = (DEPLOY / "portal" / "index.html").read_text(encoding="utf-8")
    index.write_text(text.replace('<p id="notice"></p>', NOTICE), encoding="utf-8")
    rooms.write_text(ROOMS, encoding="utf-8")
    stand.start_proxy(("/srv/rooms/portal/index.html", str(index)), ("/srv/rooms/portal/rooms.csv", str(rooms)))


def try_page(program: str, shots: Path) -> None:
    """Goes through a round as residents do."""
    with Stand(program) as stand:
        for line in LINES:
            stand.tell(line)
        stand.start()
        start_proxy(stand)
        with Page(stand, shots) as page:
            signing_in(page)
            list_by_keyboard(page)
            handing_in(page)
            try_lists(page, stand)
            try_looks(page)
            try_idle(page)
            withdrawal_refused(page)
            forced_faults(page)
            real_faults(page, stand)
            server_away(page, stand)
            withdrawal(page, stand)
            leaving(page, stand)
            closing_and_result(page, stand)
            left(page)
            given_up(page, stand)
            nothing_odd(page, stand)

"""The residents' page, for residents who sign in by an account: /usr/bin/python3 deploy/trial/signin_browser.py PROGRAM FOLDER.

The folder gets the photographs.
"""

import sys
from pathlib import Path

# The repository stays as it is.
sys.dont_write_bytecode = True

# pylint: disable=wrong-import-position  # nothing may be written before
from page_browser import DESK, Page
from page_idle import ENDED, clock, later
from signin_stand import SignInStand
from stand import HOST, check, key_of

NOBODY = "is with nobody in the register"


def go_in(page, account, name):
    """Presses the button, and says whether the provider leads back to this person."""
    page.stand.provider.account = {"sub": "subject-1", "preferred_username": account}
    page.click("account")
    return page.waits(lambda: name in page.text("facts"))


def is_out(page):
    """Whether nobody is signed in, in the page and by the browser's cookies."""
    answer = page.driver.execute_async_script(
        "const done = arguments[0];"
        "fetch('/account/me', { headers: { 'Room-Sign-In': 'account' } }).then(answer => done(answer.status));")
    return page.element("sign-in").is_displayed() and not page.text("facts") and answer == 401


def try_round(page):
    """Signs in, hands a list in, and signs out."""
    page.open()
    check("the page offers to sign in by an account", page.element("account").is_displayed())
    page.shot("50-account")
    check("which leads to the person", go_in(page, "t1", "Person T1"), page.text("fault"))
    address = page.driver.current_url
    check("and back to the page's own address", address == f"https://{HOST}:{page.stand.port}/", address)
    check("the tab has no key", page.script("return sessionStorage['room-key'];") == "account", page.kept())
    page.shot("51-account-in")
    page.add("A-2", "A-1")
    check("a list is handed in", page.hand_in() and page.stand.recorded() == {"T1": ["A-2", "A-1"]}, page.text("fault"))
    page.open()
    check("a page that is loaded again stays signed in", page.waits(lambda: "Person T1" in page.text("facts")))
    ended = len(page.stand.provider.ended)
    page.sign_out()
    check("the page signs out", page.waits(lambda: "Signed out" in page.text("fault") and is_out(page)), page.text("fault"))
    check("at the provider, too", len(page.stand.provider.ended) == ended + 1)
    check("the next one is the next person", go_in(page, "t2", "Person T2"), page.text("fault"))


def try_ends(page):
    """T2 is signed in, and the session ends."""
    page.driver.execute_cdp_cmd("Network.clearBrowserCookies", {})
    page.click("ask-again")
    named = page.is_told("You are not signed in with your college account, or no longer")
    check("a session that is over is named", named, page.text("fault"))
    check("and the person is gone from the page", is_out(page))
    check("one can sign in again", go_in(page, "t2", "Person T2"), page.text("fault"))
    page.add("A-1")
    clock(page)
    later(page, 11)
    out = page.waits(lambda: ENDED in page.text("fault") and is_out(page))
    check("after ten minutes the page signs out", out, page.text("fault"))
    page.shot("52-account-timed-out")
    back = go_in(page, "t2", "Person T2")
    check("a list that was begun is there for the same person", back and page.codes() == ["A-1"], page.codes())


def try_others(page):
    """T2 is signed in; then come a link of somebody else, and somebody whom the office does not know."""
    page.script("location.hash = arguments[0];", key_of("T1"))
    out = page.waits(lambda: "is filled in" in page.text("news") and is_out(page))
    check("another person's link signs out", out, page.text("news"))
    page.enter_key(key_of("T1"))
    check("and signs that person in", page.waits(lambda: "Person T1" in page.text("facts")), page.text("fault"))
    page.sign_out()
    check("who signs out as ever", page.waits(lambda: "Signed out" in page.text("news") and is_out(page)), page.text("news"))
    page.stand.provider.account = {"sub": "subject-1", "preferred_username": "t9"}
    page.click("account")
    check("somebody whom the office does not know reads so", page.is_told(NOBODY) and is_out(page), page.text("fault"))
    page.shot("53-account-nobody")


def try_without(page):
    """Apache is away."""
    page.stand.stop_apache()
    page.open()
    page.click("account")
    check("without Apache the browser comes back to the page", page.is_told("The server is busy"), page.text("fault"))
    page.enter_key(key_of("T1"))
    check("where a key signs in", page.waits(lambda: "Person T1" in page.text("facts")), page.text("fault"))
    page.stand.start_apache()


def try_signin_browser(program, shots):
    """All of it."""
    with SignInStand(program) as stand:
        stand.fill(["A-1", "A-2"], ["T1", "T2"])
        stand.tell("open")
        stand.start()
        stand.start_sign_in()
        stand.script("rooms-office", "accounts", "capitals")
        with Page(stand, shots) as page:
            page.width(*DESK)
            try_round(page)
            try_ends(page)
            try_others(page)
            try_without(page)
        with Page(stand, shots, "de") as page:
            page.open()
            check("the button is there in German", "Konto der Hochschule" in page.text("account"), page.text("account"))


if __name__ == "__main__":
    if len(sys.argv) != 3 or not Path(sys.argv[1]).exists():
        sys.exit("usage: /usr/bin/python3 deploy/trial/signin_browser.py PROGRAM FOLDER")
    Path(sys.argv[2]).mkdir(parents=True, exist_ok=True)
    try_signin_browser(sys.argv[1], Path(sys.argv[2]))

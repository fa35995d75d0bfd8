"""The portal page signs out by time: without use, in a tab that was closed, and after the clock was set back.

The page's own clock is set forward in place of waiting.
"""

from selenium.webdriver.common.action_chains import ActionChains
from selenium.webdriver.common.keys import Keys

from page_browser import DESK, Page
from stand import HOST, key_of, check

CLOCK = "const real = Date.now; window.ahead = 0; Date.now = () => real() + window.ahead;"
MINUTE = 60_000
# The page looks at the time in less than so many seconds.
LOOKS = 6
ENDS, ENDED = "In one minute it signs you out", "was not used for a while"


def clock(page: Page) -> None:
    """Gives the page a clock that this trial sets."""
    page.script(CLOCK)


def later(page: Page, minutes: float) -> None:
    """So many minutes go by."""
    page.script("window.ahead += arguments[0];", minutes * MINUTE)


def is_out(page: Page) -> bool:
    """Whether the page has come to forget the key, says why, and has the focus where the key goes."""
    gone = page.is_told(ENDED) and page.element("sign-in").is_displayed() and page.focus() == "key"
    return gone and not any(name.startswith("room-key") for name in page.kept())


def without_use(page: Page) -> None:
    """Ten minutes without a key, a finger or the mouse."""
    page.sign_in(key_of("T3"), "Tea Tal")
    page.add("A-5")
    clock(page)
    later(page, 8.9)
    check("nothing is said for nine minutes", not page.waits(lambda: ENDS in page.text("fault"), LOOKS))
    later(page, 0.2)
    check("a minute before the end the page says so", page.is_told(ENDS))
    page.shot("16-time-ends")
    page.keys(Keys.SHIFT)
    stays = page.waits(lambda: "still signed in" in page.text("news") and not page.text("fault"))
    check("a key is enough to stay", stays, page.text("fault"))
    later(page, 8.9)
    ActionChains(page.driver).move_by_offset(3, 3).perform()
    later(page, 8.9)
    check("so is the mouse", not page.waits(lambda: page.text("fault") != "", LOOKS), page.text("fault"))
    later(page, 1.2)
    check("after ten minutes the key is forgotten", is_out(page), (page.text("fault"), page.kept()))
    page.shot("17-timed-out")
    text = page.script("return document.body.innerHTML;")
    check("nothing of the person is left in the page", "Tea Tal" not in text and "A-5" not in page.text("desk"))
    page.sign_in(key_of("T3"), "Tea Tal")
    check("the list that was begun is there for the same person", page.codes() == ["A-5"], page.codes())


def with_question(page: Page) -> None:
    """A question is open when the time ends."""
    page.click("withdraw")
    page.waits(lambda: page.focus() == "stay")
    later(page, 9.1)
    check("a question does not cover the notice", page.is_told(ENDS) and not page.elements("dialog[open]"))
    page.click("withdraw")
    check("after which one can go on", page.waits(lambda: page.focus() == "stay"))
    later(page, 11)
    check("nor does it keep the person signed in", is_out(page), page.text("fault"))


def after_sleep(page: Page) -> None:
    """The computer wakes up, and the first thing that the page notices is the mouse."""
    page.sign_in(key_of("T3"), "Tea Tal")
    page.script("window.ahead += arguments[0]; dispatchEvent(new PointerEvent('pointermove'));", 11 * MINUTE)
    check("after a sleep the mouse does not come in time", is_out(page), page.text("fault"))


def set_back(page: Page) -> None:
    """Somebody sets the clock back."""
    page.sign_in(key_of("T3"), "Tea Tal")
    later(page, -60)
    check("a clock that was set back keeps nobody signed in", is_out(page), page.text("fault"))


def leave(page: Page) -> int:
    """Goes to another page in the same tab, as by closing it, and gives how long the key is still kept there."""
    page.driver.get(f"https://{HOST}:{page.stand.port}/texts.js")
    return page.script("return Number(sessionStorage['room-key-until']) - Date.now();")


def tab_again(page: Page) -> None:
    """A tab that was closed is opened again, with all that it kept."""
    page.open()
    page.sign_in(key_of("T3"), "Tea Tal")
    page.open()
    check("a page that is loaded again stays signed in", page.waits(lambda: "Tea Tal" in page.text("facts")))
    left = leave(page)
    check("a page that was left keeps the key for two minutes", 0 < left <= 2 * MINUTE, left)
    page.open()
    check("and is signed in within them", page.waits(lambda: "Tea Tal" in page.text("facts")))
    leave(page)
    page.script("sessionStorage['room-key-until'] = Date.now() - 1;")
    page.driver.get(f"https://{HOST}:{page.stand.port}/")
    check("but not after them", is_out(page), (page.text("fault"), page.kept()))
    page.open()
    check("and the page no longer speaks of it", page.text("fault") == "" and page.element("sign-in").is_displayed())


def try_idle(page: Page) -> None:
    """T1 is signed in; so it is afterwards."""
    page.width(*DESK)
    page.sign_out()
    without_use(page)
    with_question(page)
    after_sleep(page)
    set_back(page)
    tab_again(page)
    page.sign_in(key_of("T1"), "Tim Tan")

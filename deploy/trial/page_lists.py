"""The portal page: rooms that are found, lists that were begun, lists that another device has changed, languages."""

import http.client
import json
import socket
from typing import Any

from selenium.webdriver.common.keys import Keys
from selenium.webdriver.support.select import Select

from page_browser import DESK, Page
from stand import HOST, Stand, check, key_of, unchecked

# The next list goes to the server, and its answer is lost.
LOST_ANSWER = """
    const real = window.fetch;
    window.fetch = async (path, options) => {
        const answer = await real(path, options);
        if (options.method !== "PUT") return answer;
        window.fetch = real;
        throw new TypeError("lost");
    };"""
# The server says more of a person than the page knows of.
MORE_MEMBERS = """
    const real = window.fetch;
    window.fetch = async (path, options) => {
        const answer = await real(path, options);
        if (path !== "/me" || answer.status !== 200) return answer;
        const value = { ...await answer.json(), floor: 3, more: { deep: [1] } };
        return new Response(JSON.stringify(value), { status: 200 });
    };"""

# The texts that one language has and another lacks, or has with other values.
UNEQUAL_TEXTS = """
    const done = arguments[0];
    const all = (part, name) => typeof part === "string" ? [name + (part.match(/\\{\\w+\\}/g) ?? []).sort()]
        : Object.entries(part).flatMap(([member, value]) => all(value, `${name}.${member}`));
    import("/texts.js").then(({ TEXTS }) => {
        const [first, ...others] = Object.values(TEXTS).map(language => all(language, ""));
        done(others.flatMap(other => [...first.filter(name => !other.includes(name)),
            ...other.filter(name => !first.includes(name))]));
    });"""


class Device:
    """Another device of a resident, which needs no page."""

    def __init__(self, stand: Stand, person: str) -> None:
        self.stand, self.key = stand, key_of(person)

    def ask(self, method: str, path: str, value: object = None) -> Any:
        """Sends a request through the proxy and gives the value of its answer."""
        connection = http.client.HTTPConnection(HOST)
        plain = socket.create_connection(("127.0.0.1", self.stand.port), 30)
        connection.sock = unchecked().wrap_socket(plain, server_hostname=HOST)
        body = None if value is None else json.dumps(value)
        connection.request(method, path, body, {"Room-Key": self.key})
        answer = connection.getresponse()
        value = json.loads(answer.read())
        connection.close()
        if answer.status != 200:
            raise ValueError(f"{method} {path}: {answer.status} {value}")
        return value

    def hand_in(self, *codes: str) -> None:
        """Hands in a list."""
        self.ask("PUT", "/me/choices", list(codes))

    def recorded(self) -> list[str]:
        """The list on record."""
        return self.ask("GET", "/me")["choices"]


def rooms_found(page: Page) -> None:
    """The order of rooms, what the page says of them, and how they are found."""
    page.find("")
    check("rooms are in the order in which people count",
          page.offered() == [f"A-{n}" for n in range(1, 21)], page.offered())
    page.click("more")
    check("more rooms are shown when they are asked for, and the keyboard goes on there",
          len(page.offered()) == 40 and page.focus() == "Add room A-21", page.focus())
    about = page.text("rooms")
    check("what the college says of a room is next to it", "house North, floor 2, size 14 m²" in about, about)
    check("also with signs that CSV needs quotes for", 'house South; by the "Green", floor 0' in about, about)
    for typed, found in (
        ("north", ["A-1"]), ("occupied", ["H1", "H2", "H3"]), ("lived  H3", ["H3"]), ("a-45 free", ["A-45"]),
        ("your", ["H1"]), ("shut", ["OLD-1"]), ("free h", ["A-1", "A-2"]), ("nothing", []),
    ):
        page.find(typed)
        check(f"{typed!r} finds {found}", page.offered() == found, page.offered())
    page.find("H2")
    check("that a room may be asked for in which somebody lives is said",
          "lived in, may be asked for" in page.text("rooms")
          and "also for a room that somebody lives in" in page.text("edit"))
    page.find("")
    promises = page.text("promises")
    parts = ("never lose by asking. You keep room H1", "true list is a best list", "no other list, the one on record counts")
    check("the three promises are there", all(part in promises for part in parts), promises)


def lose_key(page: Page) -> None:
    """The tab has another key than the server, and the page is loaded again."""
    page.script("sessionStorage.setItem('room-key', 'key0000000000bad');")
    page.open()
    check("the key is asked for again", page.waits(lambda: "not known" in page.text("fault")), page.text("fault"))


def drafts(page: Page) -> None:
    """A list that was begun stays with its person until it is handed in or given up."""
    page.sign_out()
    page.sign_in(key_of("T3"), "Tea Tal")
    page.add("A-5", "V")
    page.open()
    is_there = page.waits(lambda: page.codes() == ["A-5", "V"])
    check("a list that was begun is there when the page is loaded again", is_there, page.codes())
    check("and it is said that it is not handed in",
          "still here" in page.text("news") and "Not handed in" in page.text("state"), page.text("news"))
    lose_key(page)
    page.sign_in(key_of("T3"), "Tea Tal")
    check("and when the key is asked for again", page.codes() == ["A-5", "V"], page.codes())
    lose_key(page)
    page.sign_in(key_of("N"), "Nia Ng")
    kept = page.script("return sessionStorage['rooms-draft'];")
    check("nobody else sees it", page.codes() == [] and "A-5" not in kept, kept)
    check("a resident without a room reads what a list is for", "list every room that you would take" in page.text("promises"))
    text = page.text("record")
    check("what it means to hand in nothing is said", "nothing was handed in for you yet, or" in text
          and "you get no room." in text, text)
    page.sign_out()
    page.sign_in(key_of("T3"), "Tea Tal")
    page.add("A-6")
    page.click("sign-out")
    check("before a list is lost there is a question", page.waits(lambda: page.focus() == "stay"), page.focus())
    page.shot("9-sign-out")
    page.keys(Keys.ESCAPE)
    check("Escape stays", page.waits(lambda: page.focus() == "sign-out") and page.codes() == ["A-6"], page.focus())
    page.sign_out()
    is_out = page.waits(lambda: page.element("sign-in").is_displayed())
    check("who signs out leaves nothing behind", is_out and page.kept() == [], page.kept())
    page.script("sessionStorage.setItem('rooms-draft', '{\"list\":');")
    page.sign_in(key_of("T3"), "Tea Tal")
    check("a damaged draft is ignored", page.codes() == [], page.codes())


def changed_elsewhere(page: Page, stand: Stand) -> None:
    """The newer list of another device is not replaced unasked."""
    other = Device(stand, "T3")
    page.add("A-5")
    check("who has no list on record reads of handing in nothing", "hand in nothing, you keep" in page.text("promises"))
    check("a first list is handed in", page.hand_in())
    promises = page.text("promises")
    check("with a list on record nobody reads of handing in nothing", "no other list, the one on record counts" in promises
          and "hand in nothing" not in promises, promises)
    other.hand_in("A-9", "V")
    page.add("A-6")
    page.click("hand-in")
    check("a newer list is found", page.waits(lambda: page.focus() == "later"), page.focus())
    check("both lists are shown", page.element("question-lists").text.split("\n")
          == ["On record now", "A-9, V", "Your list here", "A-5, A-6"], page.element("question-lists").text)
    page.shot("10-elsewhere")
    page.keys(Keys.ESCAPE)
    check("Escape changes nothing", page.waits(lambda: "Nothing was changed" in page.text("news"))
          and other.recorded() == ["A-9", "V"] and page.codes() == ["A-5", "A-6"], (page.text("news"), page.codes()))
    check("and it stays in sight", "changed elsewhere" in page.text("state") and page.text("record") == "A-9, V")
    page.open()
    page.waits(lambda: page.codes() == ["A-5", "A-6"])
    page.click("hand-in")
    is_asked = page.waits(lambda: page.focus() == "later")
    check("it is asked again, also after the page was loaded again", is_asked, page.focus())
    page.keys(Keys.TAB, Keys.ENTER)
    is_kept = page.waits(lambda: page.codes() == ["A-9", "V"])
    check("the list on record can be kept", is_kept and other.recorded() == ["A-9", "V"], page.codes())
    decided(page, other)


def decided(page: Page, other: Device) -> None:
    """The list in the page takes the newer one's place where the resident says so, or where nothing has to be asked."""
    other.hand_in("A-10")
    page.add("A-11")
    page.click("hand-in")
    page.waits(lambda: page.focus() == "later")
    other.hand_in("A-8")
    page.keys(Keys.TAB, Keys.TAB, Keys.ENTER)
    is_asked = page.waits(lambda: page.element("question").is_displayed() and "A-8" in page.text("question-lists"))
    check("a list that comes while it is asked is not replaced unasked, either", is_asked and other.recorded() == ["A-8"],
          (page.text("question-lists"), other.recorded()))
    page.keys(Keys.TAB, Keys.TAB, Keys.ENTER)
    check("or replaced", page.waits(lambda: "Handed in" in page.text("news"))
          and other.recorded() == ["A-9", "V", "A-11"], page.text("news"))
    page.add("A-12")
    other.hand_in("A-9", "V", "A-11", "A-12")
    page.click("hand-in")
    check("the same list from both is no question", page.waits(lambda: "Nothing to hand in" in page.text("news")))
    page.add("A-13")
    page.script(LOST_ANSWER)
    page.click("hand-in")
    page.waits(lambda: "not known whether" in page.text("fault"))
    page.add("A-14")
    is_in = page.hand_in()
    check("nor is a list of this tab whose answer was lost", is_in and other.recorded()[-2:] == ["A-13", "A-14"])


def empty_list(page: Page, stand: Stand) -> None:
    """An empty list, and none."""
    for code in page.codes():
        page.press("remove", code)
    check("an empty list can be handed in", page.hand_in() and Device(stand, "T3").recorded() == [], page.text("news"))
    check("it is known from having handed in nothing",
          page.text("record") == "You handed in an empty list: you keep room H3.", page.text("record"))
    page.script(MORE_MEMBERS)
    page.click("ask-again")
    check("what the page does not know of does not disturb it", page.waits(lambda: "has now" in page.text("news"))
          and "Tea Tal" in page.text("facts"), page.text("fault"))
    page.sign_out()


def languages(page: Page, stand: Stand) -> None:
    """The switch, and what the browser asks for."""
    unequal = page.driver.execute_async_script(UNEQUAL_TEXTS)
    check("each text is there in each language, with the same values", unequal == [], unequal)
    page.enter_key("x")
    check("the language can be chosen by the keyboard", page.tab_to("Language"))
    page.keys("D")
    is_german = page.waits(lambda: page.script("return document.documentElement.lang;") == "de")
    check("all of the page is German then", is_german and page.driver.title == "Zimmertausch"
          and "16 bis 64" in page.text("fault"), page.text("fault"))
    check("the notice too", page.text("notice") == "Bis 31. Mai, 12 Uhr.", page.text("notice"))
    page.shot("11-german-sign-in")
    page.sign_in(key_of("T3"), "Tea Tal")
    page.add("A-3", "H3", "A-4")
    page.shot("12-german-list")
    page.open()
    is_kept = page.waits(lambda: "Ihre begonnene Liste" in page.text("news"))
    check("the language is kept in the tab", is_kept, page.text("news"))
    page.click("withdraw")
    check("questions are German", page.waits(lambda: "Sie behalten Zimmer H3." in page.text("question-text")))
    page.shot("13-german-question")
    page.keys(Keys.ESCAPE)
    page.find("frei a-45")
    check("rooms are found by German words", page.waits(lambda: page.offered() == ["A-45"]), page.offered())
    page.sign_out()
    Select(page.element("language")).select_by_value("en")
    check("and back", page.text("news") == "Signed out." and page.driver.title == "Room exchange", page.text("news"))
    for asked, given in (("de-AT,fr", "de"), ("fr,de", "de"), ("fr", "en")):
        with Page(stand, page.shots, asked) as other:
            other.open()
            lang = other.script("return document.documentElement.lang;")
            check(f"a browser that asks for {asked} gets {given}", lang == given, lang)


def try_lists(page: Page, stand: Stand) -> None:
    """T1 is signed in, with a list on record; so it is afterwards."""
    page.width(*DESK)
    rooms_found(page)
    drafts(page)
    changed_elsewhere(page, stand)
    empty_list(page, stand)
    languages(page, stand)
    page.sign_in(key_of("T1"), "Tim Tan")

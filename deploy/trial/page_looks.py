"""The portal page as it looks: sizes, letters, schemes, contrast, what a screen reader gets, use by keys alone."""

from pathlib import Path
from typing import Any

from selenium.webdriver.common.keys import Keys

from page_browser import DESK, LETTERS_OF_BROWSER, PHONE, SCROLLER, Page
from page_lists import Device
from stand import Stand, check, key_of

SIZES = {"360": PHONE, "412": (412, 915), "1280": DESK, "landscape": (780, 360)}
MEDIA: dict[str, dict[str, str]] = {
    "light": {}, "dark": {"prefers_color_scheme": "dark"}, "forced": {"forced_colors": "active"},
}
LETTERS = (100, 200)
# The least contrast of text, and of what shows where a control is (WCAG 2.2, 1.4.3 and 1.4.11).
TEXT, EDGE = 4.5, 3
TARGET = 44

# Each visible text with its contrast to what lies behind it, and each control with that of its edge. What is marked as
# disabled is let off.
CONTRASTS = """
    const parts = color => color.match(/[\\d.]+/g).map(Number);
    const light = color => {
        const [r, g, b] = parts(color).slice(0, 3).map(v => v / 255)
            .map(v => v <= .04045 ? v / 12.92 : ((v + .055) / 1.055) ** 2.4);
        return .2126 * r + .7152 * g + .0722 * b;
    };
    const ratio = (one, other) => {
        const [high, low] = [light(one), light(other)].sort((a, b) => b - a);
        return (high + .05) / (low + .05);
    };
    const behind = e => {
        for (; e; e = e.parentElement) {
            const color = getComputedStyle(e).backgroundColor;
            if ((parts(color)[3] ?? 1) > 0) return color;
        }
        return "rgb(255, 255, 255)";
    };
    const isSeen = e => e.checkVisibility() && !e.closest("[aria-disabled=true], option, script");
    const found = [];
    for (const e of document.querySelectorAll("body *")) {
        const style = getComputedStyle(e);
        if (!isSeen(e)) continue;
        if ([...e.childNodes].some(n => n.nodeType === 3 && n.textContent.trim()))
            found.push(["text", e.id || e.textContent.trim().slice(0, 30), ratio(style.color, behind(e))]);
        if (e.matches("button:not(.main), input:not([type=checkbox]), select"))
            found.push(["edge", e.id || e.textContent, ratio(style.borderTopColor, behind(e.parentElement))]);
    }
    return found;"""

# Each control that is smaller than a finger. A check box has its label as well.
SMALL = """
    return [...document.querySelectorAll("button, input, select, summary")].filter(e => e.checkVisibility()).map(e => {
        const box = (e.type === "checkbox" ? e.closest("label") : e).getBoundingClientRect();
        return [e.id || e.textContent, box.width, box.height];
    }).filter(([, width, height]) => width < arguments[0] || height < arguments[0]);"""

# What scrolls inside of what scrolls.
NESTED = """
    return [...document.querySelectorAll("main *")].map(e => [e.id || e.className, getComputedStyle(e).overflowY])
        .filter(([, overflow]) => ["auto", "scroll"].includes(overflow));"""

# The places at which the button is not to be pressed, although the rooms or the list are on the screen.
UNREACHED = SCROLLER + """
    const found = [], columns = document.querySelector(".columns"), button = document.getElementById("hand-in");
    const high = document.getElementById("messages").getBoundingClientRect().bottom;
    for (let at = 0; at < scroller.scrollHeight; at += 100) {
        scroller.scrollTop = at;
        const box = columns.getBoundingClientRect(), own = button.getBoundingClientRect();
        if (box.top > innerHeight - 150 || box.bottom < high + 150) continue;
        const seen = document.elementFromPoint(own.left + own.width / 2, own.top + own.height / 2);
        if (seen !== button) found.push(at);
    }
    scroller.scrollTop = 0;
    return found;"""

# What has the focus, and whether it is seen in full.
FOCUSED = """
    const e = document.activeElement, box = e.getBoundingClientRect();
    const ends = [[box.left + 3, box.top + 3], [box.right - 3, box.bottom - 3]];
    const isSeen = ends.map(([x, y]) => document.elementFromPoint(x, y))
        .every(seen => seen && (e.contains(seen) || seen.contains(e)));
    return [e === document.body ? "" : e.id || e.getAttribute("aria-label") || e.textContent, isSeen,
        getComputedStyle(e).outlineStyle !== "none"];"""


def sizes(page: Page, name: str, top: str = "round-heading") -> None:
    """Nothing is wider than the window, in each size, scheme and size of letters; with photographs of one part."""
    def look(media: str, size: str, percent: int) -> None:
        page.width(*SIZES[size])
        page.letters(percent)
        wider = page.too_wide()
        check(f"{name}: nothing is off the screen, {media}, {size}, letters of {percent} %", wider == [], wider)
        if size == "360" or (size, percent) == ("landscape", 100):
            page.script("document.getElementById(arguments[0]).scrollIntoView();", top)
            page.picture(page.shots / f"{name}-{size}-{percent}-{media}.png")

    for media, features in MEDIA.items():
        page.media(**features)
        for size in SIZES:
            for percent in LETTERS:
                if media == "light" or (size == "360" and percent == 100):
                    look(media, size, percent)
    page.letters(100)
    page.media()


def contrast(page: Page, name: str) -> None:
    """All texts and edges stand out against what is behind them, in both schemes."""
    for scheme in ("light", "dark"):
        page.media(prefers_color_scheme=scheme)
        for kind, least in (("text", TEXT), ("edge", EDGE)):
            ratios = [(round(ratio, 2), what) for one, what, ratio in page.script(CONTRASTS) if one == kind]
            lowest = min(ratios)
            told = f"{name}: {scheme}: {len(ratios)} of {kind}, the least contrast is {lowest[0]}"
            check(told, lowest[0] >= least, lowest)
    page.media()


def tree(page: Page, name: str, headings: list[int]) -> None:
    """What a screen reader gets: each control has a name, the headings have these levels, and messages are live."""
    nodes = page.driver.execute_cdp_cmd("Accessibility.getFullAXTree", {})["nodes"]

    def value(node: dict[str, Any], member: str) -> Any:
        return node.get(member, {}).get("value", "")

    shown = [node for node in nodes if not node.get("ignored")]
    controls = [node for node in shown if value(node, "role") in (
        "button", "textbox", "searchbox", "checkbox", "combobox", "link", "DisclosureTriangle", "dialog", "region")]
    unnamed = [value(node, "role") for node in controls if not value(node, "name").strip()]
    check(f"{name}: all {len(controls)} controls have names", controls and not unnamed, unnamed)
    levels = [next(p["value"]["value"] for p in node["properties"] if p["name"] == "level")
              for node in shown if value(node, "role") == "heading"]
    check(f"{name}: headings of the levels {headings}", levels == headings, levels)
    live = page.script("return ['fault', 'news'].map(id => document.getElementById(id).getAttribute('role'));")
    check(f"{name}: the messages are live", live == ["alert", "status"], live)


def small_screen(page: Page) -> None:
    """What a phone needs, with a list of 40 rooms."""
    page.width(*PHONE)
    heights = [row.size["height"] for row in page.elements("#list li")]
    told = f"40 rooms have a line each, at most {max(heights):.0f} pixels high"
    check(told, len(heights) == 40 and max(heights) < 60, heights)
    for size in ("360", "412", "landscape"):
        page.width(*SIZES[size])
        for told, found in (
            (f"no target is smaller than {TARGET} pixels", page.script(SMALL, TARGET)),
            ("no box that scrolls is in another", page.script(NESTED)),
            ("the list can be handed in wherever it or the rooms are in sight", page.script(UNREACHED)),
            ("the message covers nothing", page.covered()),
        ):
            check(f"{size}: {told}", found == [], found)
    page.width(*PHONE)
    page.letters(200)
    top = page.script("return document.getElementById('hand-in').getBoundingClientRect().top"
                      " - document.getElementById('list').getBoundingClientRect().top;")
    check("with large letters the button is above the 40 rooms", top < 0, top)
    check("and nothing is covered", page.covered() == [], page.covered())
    page.letters(100)
    check("keys are not mentioned if there are none", "Alt" not in page.text("list-hint"), page.text("list-hint"))
    page.width(*DESK)
    check("and are mentioned if there are", "Alt" in page.text("list-hint"), page.text("list-hint"))


def by_keys(page: Page) -> None:
    """The Tab key goes through all controls, and each is seen when it has the focus."""
    for size in ("360", "landscape", "1280"):
        page.width(*SIZES[size])
        page.script("document.getElementById('language').focus();")
        names, hidden = [], []
        for _ in range(300):
            page.keys(Keys.TAB)
            name, is_seen, has_ring = page.script(FOCUSED)
            if name in ("", "language"):
                break
            names.append(name)
            if not (is_seen and has_ring):
                hidden.append((name, is_seen, has_ring))
        wanted = ["sign-out", "ask-again", "find", "more", "hand-in", "Move A-1 up", "Remove A-40", "undo", "withdraw"]
        places = [names.index(name) for name in wanted if name in names]
        is_whole = len(places) == len(wanted)
        check(f"{size}: Tab goes through {len(names)} controls in order", is_whole and places == sorted(places), names)
        check(f"{size}: each is in sight, with a ring", not hidden, hidden)


def large_letters(stand: Stand, shots: Path) -> None:
    """A browser whose user has set letters of twice the size."""
    with Page(stand, shots, letters=2 * LETTERS_OF_BROWSER) as page:
        page.width(*PHONE)
        page.open()
        check("large letters of the browser: nothing is off the screen", page.too_wide() == [], page.too_wide())
        page.picture(shots / "s8-large-sign-in.png")
        page.sign_in(key_of("T1"), "Tim Tan")
        check("nor when signed in", page.too_wide() == [], page.too_wide())
        check("and nothing is covered", page.covered() == [], page.covered())
        page.script("document.getElementById('list-heading').scrollIntoView();")
        page.picture(shots / "s8-large-list.png")


def try_looks(page: Page) -> None:
    """T1 is signed in; so it is afterwards. N has a list of 40 rooms meanwhile."""
    stand = page.stand
    other = Device(stand, "N")
    page.sign_out()
    sizes(page, "s1-sign-in", "sign-in")
    contrast(page, "sign-in")
    tree(page, "sign-in", [1, 2])
    page.script("document.querySelector('#about summary').click();")
    sizes(page, "s2-about", "about")
    contrast(page, "about")
    page.script("document.querySelector('#about summary').click();")
    other.hand_in(*[f"A-{n}" for n in range(1, 41)])
    page.sign_in(key_of("N"), "Nia Ng")
    page.press("up", "A-40")
    small_screen(page)
    by_keys(page)
    page.press("down", "A-40")
    page.press("remove", "A-40")
    contrast(page, "list")
    tree(page, "list", [1, 2, 3, 2, 2, 2, 2])
    sizes(page, "s3-desk")
    sizes(page, "s4-rooms", "rooms-heading")
    sizes(page, "s5-list", "list-heading")
    sizes(page, "s6-withdraw", "withdraw-heading")
    other.hand_in("A-9", "A-8")
    page.click("hand-in")
    page.waits(lambda: page.focus() == "later")
    sizes(page, "s7-question", "question-heading")
    contrast(page, "question")
    tree(page, "question", [2])
    page.keys(Keys.ESCAPE)
    other.hand_in()
    page.sign_out()
    large_letters(stand, page.shots)
    page.sign_in(key_of("T1"), "Tim Tan")

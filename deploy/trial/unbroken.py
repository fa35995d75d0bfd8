"""Room codes in sentences, on both pages: /usr/bin/python3 deploy/trial/unbroken.py PROGRAM FOLDER.

A browser may end a line at a hyphen. At each width from 320 to 420 pixels each code is looked for in all texts of a page, and has
to be in one line. The folder gets photographs at 360 and 1,280 pixels.
"""

import sys
from pathlib import Path

# The repository stays as it is.
sys.dont_write_bytecode = True

# pylint: disable=wrong-import-position  # nothing may be written before
from office_browser import Clerk
from page_browser import Page
from stand import Stand, check, key_of

ROOMS = [f"EAST-{number:03}" for number in range(1, 13)]
WIDTHS = range(320, 421, 4)
SEED = "ef" * 32
# Each code whose letters are not all in one line, and how many codes there are. Text in a table, in a field, or in a list of
# rooms is in a box of its own.
BROKEN = r"""
    const walk = document.createTreeWalker(document.body, NodeFilter.SHOW_TEXT), found = [];
    let count = 0;
    for (let node = walk.nextNode(); node; node = walk.nextNode()) {
        for (const match of node.data.matchAll(/EAST-\d{3}/g)) {
            const range = document.createRange();
            range.setStart(node, match.index);
            range.setEnd(node, match.index + match[0].length);
            const lines = new Set([...range.getClientRects()].filter(box => box.width).map(box => Math.round(box.top)));
            count += lines.size > 0;
            if (lines.size > 1) found.push(node.parentElement.closest("p, li, dd, h1, h2, td, label").textContent.slice(0, 80));
        }
    }
    return [count, found];"""


def look(driver, name):
    """No code of the page is broken, at any width."""
    most, broken = 0, list[object]()
    for width in WIDTHS:
        driver.execute_cdp_cmd("Emulation.setDeviceMetricsOverride",
                               {"width": width, "height": 900, "deviceScaleFactor": 1, "mobile": True})
        count, found = driver.execute_script(BROKEN)
        most, broken = max(most, count), broken + [[width, text] for text in found]
    driver.execute_cdp_cmd("Emulation.clearDeviceMetricsOverride", {})
    check(f"{name}: none of {most} codes is broken at a hyphen", most and not broken, broken[:5])


def try_resident(stand, shots):
    """What a resident reads while the round is open, in German, whose sentences are longer."""
    with Page(stand, shots, languages="de") as page:
        page.open()
        check("a resident signs in", page.sign_in(key_of("T1"), "Person T1"))
        page.add(*ROOMS[1:6])
        look(page.driver, "a list that is not handed in")
        page.shot("u1-list")
        check("hands in", page.hand_in())
        look(page.driver, "what was handed in")
        page.click("withdraw")
        page.waits(lambda: page.element("question").is_displayed())
        look(page.driver, "the question before a withdrawal")
        page.shot("u2-question")


def try_clerk(stand, shots):
    """What a clerk reads of the same round."""
    with Clerk(stand, "anna", shots) as clerk:
        for name, path in (("the overview", ""), ("a person", "person/T1"), ("a question", "person/T2/withdraw"),
                           ("the question about a room", f"rooms/{ROOMS[0]}/shut")):
            clerk.visit(f"/office/{path}")
            look(clerk.driver, name)
        rows = "\n".join(["person,choices", *(f"T{number},EAST-999 {ROOMS[number]}" for number in (1, 2, 3))])
        wrong = stand.folder / "choices.csv"
        wrong.write_text(rows + "\n", encoding="utf-8")
        clerk.try_list("choices", wrong)
        clerk.reads("3 lines have to be corrected")
        for line in ("close", "run", "publish"):
            stand.office(line)
            if line == "close":
                stand.ask(ask="draw", who="anna", seed=SEED)
        for name, path in (("results", "results"), ("how a result came about", "person/T3"), ("letters", "letters"),
                           ("all about a person", "about/T3")):
            clerk.visit(f"/office/{path}")
            look(clerk.driver, name)
            clerk.shot(f"u3-{path.replace('/', '-')}")


def try_result(stand, shots):
    """And the result."""
    with Page(stand, shots, languages="de") as page:
        page.open()
        check("a resident signs in once more", page.sign_in(key_of("T1"), "Person T1"))
        look(page.driver, "a result")
        page.shot("u4-result")


def try_unbroken(program, shots):
    """All of it."""
    with Stand(program) as stand:
        people = [f"T{number}" for number in range(1, 6)]
        stand.fill(ROOMS, people)
        stand.start()
        stand.start_page()
        stand.start_proxy()
        for person, room in zip(people[:4], ROOMS):
            stand.office(f"home {person} {room}")
        stand.office("open")
        try_resident(stand, shots)
        stand.office(f"choose T2 {ROOMS[0]} {ROOMS[5]}")
        stand.office(f"choose T3 {ROOMS[0]} {ROOMS[1]} {ROOMS[5]}")
        try_clerk(stand, shots)
        try_result(stand, shots)


def main(words):
    """Runs this trial alone."""
    if len(words) != 2:
        sys.exit("usage: /usr/bin/python3 deploy/trial/unbroken.py PROGRAM FOLDER")
    shots = Path(words[1])
    shots.mkdir(parents=True, exist_ok=True)
    try_unbroken(words[0], shots)


if __name__ == "__main__":
    main(sys.argv[1:])

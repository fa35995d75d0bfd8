"""Where the office's page leads a clerk: /usr/bin/python3 deploy/trial/office_overview.py PROGRAM.

An empty office, a round in which nobody takes part, a server that does not run, faults within a list itself, and the plan of
moves.
"""

import contextlib
import re
import sqlite3
import sys
from pathlib import Path

# The repository stays as it is.
sys.dont_write_bytecode = True

# pylint: disable=wrong-import-position,wrong-import-order  # nothing may be written before, and one is in the folder of the office
from office_again import flat, listed
from office_requests import Page
from stand import OFFICE, Stand, check, key_of, until

sys.path.append(str(OFFICE))

from meanings import meaning_of

MAIN = re.compile(r'class="button main" href="([^"]+)"')
ALL = re.compile(r'class="button[^"]*" href="([^"]+)"')
SEED = "cd" * 32
# A chain: P1 goes where P2 was, and so on to P4, who goes into an empty room. P5 and P6 swap. P7 leaves the college, and P8, who
# has no room, gets theirs.
HOMES = {f"P{number}": f"A-{number}" for number in range(1, 8)}
LISTS = {"P1": "A-2", "P2": "A-3", "P3": "A-4", "P4": "A-9", "P5": "A-6", "P6": "A-5", "P8": "A-7"}


def try_empty(stand, page):
    """An empty office leads to its lists, and an office with rooms and people to the round."""
    shown = page.get("/office/")[2]
    check("an empty office leads to its lists", MAIN.findall(shown) == ["/office/lists"] and
          "There are no rooms and no people in the register yet" in flat(shown), shown)
    check("the round can be opened all the same", "/office/step/open" in ALL.findall(shown), shown)
    stand.office("room A-1")
    shown = page.get("/office/")[2]
    check("so does an office without people", MAIN.findall(shown) == ["/office/lists"] and
          "There are no people in the register yet" in flat(shown), shown)
    says = {"open": "Nobody is in the register who could take part", "close": "Nobody takes part in this round"}
    for step in ("open", "close"):
        question = page.get(f"/office/step/{step}")[2]
        check(f"the question before {step} says that nobody takes part", says[step] in question, question)
        page.form(f"/office/step/{step}", page=f"/office/step/{step}")
    check("it is only said, and not forbidden", stand.ask(ask="view")["phase"] == "closed")
    stand.office("cancel")


def try_within(page):
    """What is twice in a list is no fault of the register, and spaces are seen."""
    rows = [[f"X{number}", f"Person {number}", "", ""] for number in range(1, 60)]
    rows[3][3] = rows[51][3] = "A-1"
    rows[40][0] = "X9"
    body = listed(rows)
    shown = flat(page.form("/office/lists", {"kind": "people", "label": "twice", "keys": "1"}, files={"list": body})[2])
    for text in ("This room is in row 5 of this list already", "This person is in row 10 of this list already"):
        check(f"a fault within the list reads: {text}", text in shown, shown[:4000])
    check("and not as one of the register", "Another person lives" not in shown and "register already" not in shown, shown[:4000])
    check("a key that was not there is not shown", "(key)" not in shown and "X9 | Person 41 |  | " in shown, shown[:4000])
    body = listed([["X1", "Ann  Li ", "", ""], ["X2 ", " Bo", "", "A  1"]])
    shown = page.form("/office/lists", {"kind": "people", "label": "spaces", "keys": "1"}, files={"list": body})[2]
    check("spaces that were mended are seen",
          all(f'<code class="asis">{text}</code>' in flat(shown) for text in ("Ann  Li ", " Bo", "X2 ")), shown)
    check("and those of a fault", "X2 | Bo |  | A  1</code>" in shown, shown)
    css = page.get("/office/office.css")[2]
    check("as many as there are, on a ground of their own",
          re.search(r"code\.asis \{[^}]*white-space: pre-wrap;[^}]*background:", css), css)
    shown = flat(page.form("/office/lists", {"kind": "rooms", "label": "rooms"}, files={"list": b"room\nB-1\nB-2\nB-1\n"})[2])
    check("a room that is twice in a list, too", "This room is in row 2 of this list already" in shown
          and "register already" not in shown, shown)


def try_plan(stand, page):
    """The plan of moves says at its head how many waves there are, and what to do in a day."""
    lines = [f"room A-{number}" for number in range(2, 10)]
    lines += [f"person P{number} {key_of(f'P{number}')} Person {number}" for number in range(1, 9)]
    lines += [f"home {person} {room}" for person, room in HOMES.items()]
    stand.script("rooms-office", "lines", given="\n".join(lines) + "\n")
    check("an office with rooms and people leads to the round", MAIN.findall(page.get("/office/")[2]) == ["/office/step/open"])
    copied = "The keeper makes a copy of the office first."
    said = [act for act in ("leave", "remove") if copied in flat(page.get(f"/office/person/P1/{act}")[2])]
    check("the question before somebody leaves a room says that a copy is made, as that before they are removed does",
          said == ["leave", "remove"], said)
    check("whose question says nothing of nobody", "Nobody" not in page.get("/office/step/open")[2])
    stand.office("open")
    stand.office("going P7")
    check("it counts one who leaves", "; withdrawn: 0; leave the college: 1</dd>" in flat(page.get("/office/")[2]))
    for person, rooms in LISTS.items():
        if person == "P8":
            shown = flat(page.get("/office/step/close")[2])
            check("and one without a list", "1 of 7 participants has no list on record, or an empty one." in shown, shown)
        stand.office(f"choose {person} {rooms}")
    stand.office("close")
    page.form("/office/seed", {"way": "seed", "text": SEED}, page="/office/draw")
    page.form("/office/draw", {"seed": SEED}, page="/office/draw")
    stand.office("run")
    shown = flat(page.get("/office/moves/2")[2])
    # P4 and P8 can move at once, then P3, P2, P1: four waves; the swap is a circle.
    check("it counts people, waves and circles",
          "7 people move, in 4 waves and 1 circle. 1 person leaves the college." in shown, shown)
    check("as many as it shows", len(re.findall("<h2>Wave", shown)) == 4 and len(re.findall("<h2>Circle", shown)) == 1, shown)
    check("and says how to do it in a day", "to a store in the morning, and moves in after noon" in shown
          and "<p class=\"box\">7 people move" in shown, shown)


def try_limits():
    """The text of a limit that is reached has each limit that docs/formats.md has."""
    rows = (OFFICE.parents[1] / "docs/formats.md").read_text("utf-8").splitlines()
    limits = re.findall(r"\d[\d,]*\d", next(row for row in rows if "`LimitReached`" in row).split("|")[4])
    lacks = [limit for limit in limits if limit not in meaning_of("refused 13 LimitReached").says]
    check("a limit that is reached is named, whichever it is", len(limits) == 5 and not lacks, lacks)


def spoil(stand, change):
    """Another program writes into the file while the keeper is away."""
    stand.stop_keeper()
    with contextlib.closing(sqlite3.connect(stand.file)) as database:
        database.execute("PRAGMA foreign_keys = OFF")
        database.execute(change)
        database.commit()
    stand.start_keeper()
    until(lambda: stand.ask(ask="view")["status"] is not None, 30, "the end of the server")


def try_stopped(stand, page):
    """The overview says why the server does not run, and what to do; and so does the clerk's command."""
    check("a server that runs is not spoken of", "server" not in page.get("/office/")[2])
    spoil(stand, "UPDATE result SET room = 'A-8' WHERE person = 'P1'")
    shown = flat(page.get("/office/")[2])
    for text in ("The residents' server does not run.", "it says &quot;refused 21 NotAnOffice&quot;.",
                 "The file is not an office&#039;s file any more",
                 "<strong>What to do:</strong> Change nothing, and call the administrator"):
        check(f"a file that the program refuses reads: {text}", text in shown, shown)
    check("and no number alone", "status 1" not in shown, shown)
    told = stand.command("do", "round")
    check("the command says the same", told[:2] == (1, "refused 21 NotAnOffice\n"), told)
    page.form("/office/person/P1/name", {"name": "Ann Li"}, page="/office/person/P1")
    shown = flat(page.get("/office/person/P1")[2])
    told = stand.command("name", "P1", "Ann Li")
    for says in shown, told[2].replace("'", "&#039;"):
        check("so does who corrects a name: it is not said to be wrong", "The file is not an office&#039;s file any more" in says
              and "Change nothing, and call the administrator" in says and "name or key" not in says, says)
    check("with the answer of the program", told[:2] == (1, "refused 21 NotAnOffice\n"), told)
    copy = next(name for name, _, why in reversed(stand.ask(ask="backups")["backups"]) if "before run" in why)
    page.form(f"/office/copies/{copy}/back", page=f"/office/copies/{copy}/back")
    until(lambda: stand.ask(ask="view")["server"], 30, "the server")
    check("after the way back it runs again", "does not run" not in page.get("/office/")[2])
    spoil(stand, "UPDATE round SET version = 9")
    shown = flat(page.get("/office/")[2])
    for text in ("it says &quot;refused 22 OtherVersion 9&quot;.", "has another version than the program",
                 "brings the file to the version of the program"):
        check(f"a file of another version reads: {text}", text in shown, shown)


def try_office_overview(program):
    """All of it."""
    try_limits()
    with Stand(program) as stand:
        stand.start()
        stand.start_page()
        stand.start_proxy()
        page = Page(stand)
        try_empty(stand, page)
        try_within(page)
        try_plan(stand, page)
        try_stopped(stand, page)
        check("the page has noted no fault of its own", "rooms-page:" not in stand.log("page"), stand.log("page"))


if __name__ == "__main__":
    if len(sys.argv) != 2 or not Path(sys.argv[1]).exists():
        sys.exit("usage: /usr/bin/python3 deploy/trial/office_overview.py PROGRAM")
    try_office_overview(sys.argv[1])

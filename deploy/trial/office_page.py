"""A year of 300 people, by the office's page alone: /usr/bin/python3 deploy/trial/office_page.py PROGRAM FOLDER.

A clerk imports lists, opens a round, residents hand lists in over HTTP with the keys of the printed slips, and the
clerk goes on to the day of moving, in headless Chromium without scripts. The folder gets the photographs. The record
and the audit have to agree with what the page shows, and no key may be in any log.
"""

import csv
import io
import re
import subprocess
import sys
from pathlib import Path

# The repository stays as it is.
sys.dont_write_bytecode = True

# pylint: disable=wrong-import-position  # nothing may be written before
from selenium.webdriver.common.by import By

from office_browser import WIDTHS, Clerk
from office_college import College
from office_register import bring_lists_in, keep_the_register
from office_requests import Page, hand_in
from stand import OFFICE, PYTHON, Stand, check

THROWS = " ".join("3166254122631662541526341" * 2)
FEW = THROWS[:49]
CLOSING = "Moving day is 1 October. Questions: office@example.org"


def open_round(clerk, stand, college):
    """The round opens, by keyboard alone; residents hand in; a list of choices is imported next to theirs."""
    clerk.visit("/office/")
    check("the Tab key leads to the next step", clerk.tab_to("Open the next round"))
    clerk.enter()
    clerk.shot("11-question")
    check("the Tab key leads to the yes", clerk.tab_to("Yes: open the next round"))
    clerk.enter()
    clerk.reads("Round 1 is open.")
    handed = [person for person in college.choices if person in college.people[:200]]
    faults = [person for person in handed if hand_in(stand, college.keys[person], college.choices[person]) != 200]
    check("200 residents hand in a list with the keys of the slips", not faults and len(handed) == 200, faults[:5])
    by_office = [[person, " ".join(college.choices[person])] for person in college.people[200:260]]
    clerk.try_list("choices", college.write("choices.csv", ["person", "choices"], [["R001", "A-101"], *by_office]))
    clerk.reads("1 of these people has another list on record already")
    clerk.shot("12-replaces")
    clerk.press("Bring in only the people who have no other list")
    clerk.reads("The list is in, with 60 lines.")
    check("the resident's own list stays", stand.ask(ask="view")["choices"]["R001"] == college.choices["R001"])
    clerk.try_list("choices", college.write("choices.csv", ["person", "choices"], by_office), label="choices-1")
    clerk.reads("The same list came in before")
    clerk.shot("13-known")
    wrong = [["R001", "A-101"], ["R777", "A-101"], ["R002", "A-101 Z-1"], ["R003", "A-101 A.102"]]
    clerk.try_list("choices", college.write("choices.csv", ["person", "choices"], wrong))
    clerk.reads("3 lines have to be corrected")
    clerk.visit("/office/")
    clerk.reads("260 of 297")
    clerk.shot("14-overview")
    clerk.visit("/office/person/R264")
    clerk.put("text", "b-110 b-111")
    clerk.press("Put this list on record")
    clerk.reads("on record: B-110 B-111")
    clerk.shot("15-person")
    clerk.visit("/office/many")
    clerk.put("text", "R290 R291")
    clerk.tick("withdraw")
    clerk.press("Show who they are")
    clerk.tick()
    clerk.press("Yes: withdraw them")
    clerk.reads("Done for 2 people")
    note_leavers(clerk, college)


def note_leavers(clerk, college):
    """One person is noted to leave the college on their own page, and two by a list of identifiers."""
    one, *others = college.leavers
    clerk.visit(f"/office/person/{one}")
    clerk.press("Leaves the college")
    clerk.shot("15-leaves")
    clerk.tick()
    clerk.press("Yes: leaves the college")
    clerk.reads("The person leaves the college at the end of the round.", "no, leaves the college")
    clerk.visit("/office/many")
    clerk.put("text", " ".join([one, *others]))
    clerk.tick("going")
    clerk.press("Show who they are")
    clerk.reads(f"{one} leaves the college already.")
    clerk.put("text", " ".join(others))
    clerk.tick("going")
    clerk.press("Show who they are")
    clerk.shot("15-many-leave")
    clerk.tick()
    clerk.press("Yes: note that they leave")
    clerk.reads("Done for 2 people")
    clerk.visit("/office/")
    clerk.reads("Leave the college: 3", "leave the college: 3")
    clerk.shot("15-leavers")
    clerk.visit(f"/office/person/{one}")
    clerk.reads("This person leaves the college.")
    clerk.shot("15-leaver")


def look_at_large_text(stand, shots, phase):
    """With text of twice the size no page is wider than a narrow window."""
    pages = [
        "",
        "lists",
        "register",
        "rooms",
        "person/R264",
        "many",
        "draw",
        "results",
        "print",
        "record",
        "copies",
        "journal",
    ]
    published = ["letters", "moves/1", "step/settle", "committee"]
    pages += {"open": ["step/close", "person/R264/withdraw"], "published": published}[phase]
    with Clerk(stand, "bert", shots, text=32) as clerk:
        for page in pages:
            clerk.visit(f"/office/{page}")
            clerk.photograph(f"large-{phase}-{page.replace('/', '-') or 'overview'}", 360)
    check(f"with large text {len(pages)} pages fit a narrow window while the round is {phase}", True)


def draw_and_run(clerk, stand):
    """The round is closed, the seed of the dice is noted and drawn with, and the rooms are given."""
    clerk.visit("/office/step/close")
    clerk.reads("have no list on record")
    clerk.press("Yes: close the round")
    clerk.reads("The round is closed, with 292 participants.")
    clerk.press("Draw the order")
    clerk.reads("the seed decides among people of the same grade")
    clerk.shot("16-draw")
    clerk.put("text", THROWS.replace(" ", ""))
    clerk.press("Write the seed of this text")
    clerk.reads("Write a space between two throws")
    clerk.put("text", FEW)
    clerk.press("Write the seed of this text")
    clerk.reads("You entered 25 throws", "50 throws are needed")
    clerk.shot("16-few")
    clerk.press("No, go back")
    clerk.put("text", THROWS)
    clerk.press("Write the seed of this text")
    sums = subprocess.run(["sha256sum"], input=THROWS, capture_output=True, text=True, check=True).stdout.split()[0]
    check("the seed is that of sha256sum", sums in clerk.text().replace(" ", "").replace("\n", ""), sums)
    entries = stand.ask(ask="journal", last=3)["journal"]
    check(
        "the seed is in the journal before the draw",
        any(entry.get("note", "").startswith(f"seed {sums}") for entry in entries),
        entries,
    )
    clerk.shot("17-seed")
    clerk.press("Yes: draw with this seed")
    clerk.reads("The order of 292 participants is drawn.", "The seed of this draw")
    rows = [row.text.split() for row in clerk.driver.find_elements(By.CSS_SELECTOR, "tbody tr")]
    check("the order goes by grade and word", len(rows) == 292 and rows == sorted(rows, key=lambda row: row[-2:]))
    check("and shows the grades", {row[-2] for row in rows} >= set("012"), {row[-2] for row in rows})
    clerk.shot("18-order")
    clerk.visit("/office/")
    clerk.press("Give the rooms")
    clerk.press("Yes: give the rooms")
    clerk.reads("The rooms are given to 292 participants.")
    return sums


def look_at_results(clerk, stand, page, college, seed):
    """Results, explanation, what-if, the record and the audit."""
    clerk.visit("/office/results")
    clerk.reads("The independent audit gives the same rooms", "Not published")
    clerk.shot("19-results")
    view = stand.ask(ask="view")
    results, homes = dict(view["results"]), {row[0]: row[2] for row in view["people"]}
    rows = list(csv.DictReader(io.StringIO(page.get("/office/export/results.csv")[2])))
    first = sum(row["outcome"] == "choice 1" for row in rows)
    check("the picture counts as the export does", re.search(rf"^Choice 1 {first}\b", clerk.text(), re.M), first)
    check("the export has what the office has", {row["person"]: row["new"] or None for row in rows} == results)
    order = [row["person"] for row in csv.DictReader(io.StringIO(page.get("/office/export/order.csv")[2]))]
    printed = stand.ask(ask="try", lines=["order"])["answers"][0][0]
    check("the order is exported as the office has it", order == [line.split()[2] for line in printed.splitlines()])
    exported = csv.DictReader(io.StringIO(page.get("/office/export/choices.csv")[2]))
    listed = {row["person"]: row["choices"] for row in exported}
    check(
        "the lists are exported as they were imported", listed["R010"] == " ".join(college.choices["R010"]) and len(listed) == 261
    )
    person = next(one for one in results if results[one] and results[one] != homes[one])
    clerk.visit(f"/office/person/{person}")
    clerk.reads("How this came about", f"got {results[person]}")
    clerk.put("text", "c-120 a-103")
    clerk.press("Ask")
    clerk.reads("By the list C-120 A-103 this person would get")
    clerk.shot("20-whatif")
    check_record(clerk, stand, page, college, seed)
    return results


def check_record(clerk, stand, page, college, seed):
    """The record has no names and no keys, and the audit and a rehearsal agree with it."""
    results = dict(stand.ask(ask="view")["results"])
    clerk.visit("/office/record")
    clerk.shot("21-record")
    status, _, record = page.form("/office/record", page="/office/record")
    check("the record comes", status == 200 and "draw " in record, record[:200])
    check(
        "the record has no name and no key",
        not any(key in record for key in college.keys.values()) and "Zoë" not in record,
    )
    audit = subprocess.run(
        [PYTHON, OFFICE / "audit.py", "-", "R001", "--seed", seed],
        input=record,
        capture_output=True,
        text=True,
        check=False,
    )
    check("audit.py agrees with the record and the seed", audit.returncode == 0, audit.stdout + audit.stderr)
    again = subprocess.run(
        [stand.program, "rehearse"], input=record, capture_output=True, text=True, check=False
    ).stdout
    check(
        "a rehearsal of the record gives the same rooms",
        all(re.search(rf"^{one} +{room or 'none'}$", again, re.M) for one, room in results.items()),
        again[-500:],
    )


def publish_and_print(clerk, stand, page, college, results):
    """Publishing, letters, and the plan of moves before the round is settled."""
    clerk.visit("/office/step/publish")
    clerk.press("Yes: publish the results")
    clerk.reads("The results of 292 participants are published.")
    clerk.visit("/office/letters")
    clerk.put("closing", CLOSING)
    clerk.press("Put this text into the letters")
    letters = page.form("/office/letters", {"closing": CLOSING}, page="/office/copies")[2].split(
        '<section class="sheet"'
    )[1:]
    check("292 letters with the clerk's text", len(letters) == 292 and all(CLOSING in letter for letter in letters))
    check(
        "each letter names one person alone, and says how the result came about",
        all(
            len(set(re.findall(r"\bR\d{3}\b", letter))) == 1 and "Your place in the order was" in letter
            for letter in letters
        ),
    )
    for width in WIDTHS:  # too many letters for more than photographs
        clerk.photograph(f"22-letters-{width}", width)
    check("each letter is a sheet", clerk.pdf("22-letters") == 292, "sheets")
    clerk.visit("/office/moves/1")
    clerk.reads("The round is not settled yet", "Leave the college: 3 people")
    clerk.shot("23-moves")
    print(f"      the plan of moves is {clerk.pdf('23-moves')} sheets")
    before = clerk.text().split("Wave 1", 1)[1]
    for name, path in (("24-print", "print"), ("25-copies", "copies"), ("26-journal", "journal")):
        clerk.visit(f"/office/{path}")
        clerk.shot(name)
    clerk.visit("/office/step/settle")
    clerk.shot("27-settle")
    clerk.press("Yes: settle the round")
    clerk.reads("The round is settled, with")
    clerk.visit("/office/moves/1")
    check("settling records the plan", clerk.text().split("Wave 1", 1)[1] == before)
    homes = {row[0]: row[2] for row in stand.ask(ask="view")["people"]}
    check("homes are the results", all(homes[person] == room for person, room in results.items()))
    check("who leaves has no room", all(homes[person] is None for person in college.leavers))


def go_back(clerk, stand):
    """A kept list is blanked, and the office goes back to the copy before the round was settled."""
    clerk.visit("/office/blank/people-1")
    clerk.shot("28-blank")
    clerk.press("Yes: blank it")
    clerk.reads("The list people-1 is blank.")
    clerk.visit("/office/copies")
    row = next(name for name, _, why in stand.ask(ask="backups")["backups"] if "settle" in why)
    clerk.visit(f"/office/copies/{row}/back")
    clerk.shot("29-back")
    clerk.press("Yes: go back to this copy")
    clerk.reads("The office is back at the copy", "the results are published")


def try_office_page(program, shots):
    """The whole year."""
    with Stand(program) as stand:
        college = College(stand.folder)
        stand.start()
        stand.start_page()
        stand.start_proxy()
        page = Page(stand)
        with Clerk(stand, "anna", shots) as clerk:
            bring_lists_in(clerk, college)
            keep_the_register(clerk, stand, college)
            open_round(clerk, stand, college)
            look_at_large_text(stand, shots, "open")
            seed = draw_and_run(clerk, stand)
            results = look_at_results(clerk, stand, page, college, seed)
            publish_and_print(clerk, stand, page, college, results)
            go_back(clerk, stand)
            look_at_large_text(stand, shots, "published")
            check("the browser found nothing wrong", not clerk.complaints(), clerk.complaints())
            print(f"      {len(clerk.seen)} pages looked at: width, names, contrast")
        journal = (stand.data / "journal").read_text(encoding="utf-8")
        logs = stand.proxy_log() + stand.log("page") + stand.log("keeper") + journal
        check("no key is in a log or in the journal", not any(key in logs for key in college.keys.values()))
        check("what was searched for is in no log", "zo" not in stand.proxy_log().lower().replace("/office/", ""))
        check("the page's log is empty", not stand.log("page").strip(), stand.log("page"))


def main(words):
    """Runs this trial alone."""
    if len(words) != 2:
        sys.exit("usage: /usr/bin/python3 deploy/trial/office_page.py PROGRAM FOLDER")
    shots = Path(words[1])
    shots.mkdir(parents=True, exist_ok=True)
    try_office_page(words[0], shots)


if __name__ == "__main__":
    main(sys.argv[1:])

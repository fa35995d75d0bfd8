"""Lists as offices have them: /usr/bin/python3 deploy/trial/office_formats.py PROGRAM.

Semicolons, tabs, character sets, workbooks, other columns: the page shows what it understood, and the office has it.
Workbooks that would take the memory are refused, and take none.
"""

import re
import sys
import time
from collections.abc import Callable
from pathlib import Path

# The repository stays as it is.
sys.dont_write_bytecode = True

# pylint: disable=wrong-import-position  # nothing may be written before
import workbooks
from office_again import bring, flat
from office_requests import Page
from stand import Stand, check

HEADER = ["Matrikelnummer", "Name", "Vorname", "E-Mail", "Zimmer"]
ROOMS = [f"A-{number}" for number in range(101, 141)]
MOST_MEMORY = 300  # megabytes of the page's process


def rows_for(letter):
    """People of an office's own list, and what the office has of them afterwards."""
    rows = [[f"{letter}1 ", "Öztürk", "Zoë", "z@x", f"{letter}-101".lower()], [f"{letter.lower()}2", "Li  Wei", "Bo", "", ""],
            [f"{letter}3", "Ash, jr.", "Ann", "", f" {letter}-103"]]
    return rows, {f"{letter}1": ["Zoë Öztürk", f"{letter}-101"], f"{letter}2": ["Bo Li Wei", None],
                  f"{letter}3": ["Ann Ash, jr.", f"{letter}-103"]}


def separated(rows, sign, charset):
    """A list as a text."""
    text = "\r\n".join(sign.join(f'"{field}"' if sign in field else field for field in row) for row in rows) + "\r\n"
    return text.encode(charset)


def send(page, kind, label, body):
    """Sends a list, and gives the page that follows."""
    status, _, shown = page.form("/office/lists", {"kind": kind, "label": label, "keys": "1"}, files={"list": body})
    return flat(page.get("/office/lists")[2] if status == 303 else shown)


def bad_rows(shown):
    """The rows of the lines that a page names as faults."""
    return re.findall(r'<td class="number">(\d+)</td>', shown)


def people(stand):
    """The people with their names and rooms."""
    return {row[0]: row[1:3] for row in stand.ask(ask="view")["people"]}


FORMS: dict[str, Callable[..., bytes]] = {
    "CSV with semicolons, in the character set of Windows": lambda rows: separated(rows, ";", "cp1252"),
    "CSV with semicolons, in UTF-8": lambda rows: separated(rows, ";", "utf-8-sig"),
    "CSV with tabs, in UTF-16": lambda rows: separated(rows, "\t", "utf-16"),
    "CSV with commas, in UTF-8": lambda rows: separated([["People of 2027"], *rows], ",", "utf-8"),
    "a workbook of Excel": workbooks.xlsx,
    "a workbook of LibreOffice": workbooks.ods,
}


def try_forms(stand, page):
    """Each form of file comes in, after the clerk has seen what the page understood."""
    for letter, (name, make) in zip("BCDEFG", FORMS.items()):
        bring(page, send(page, "rooms", f"rooms-{letter.lower()}", f"room\n{letter}-101\n{letter}-103\n".encode()))
        rows, expected = rows_for(letter)
        shown = send(page, "people", f"people-{letter.lower()}", make([HEADER, *rows]))
        check(f"the page says what the file is: {name}", f"The file is {name}" in shown, shown[:3000])
        for text in ("<td>Matrikelnummer</td><td>person</td>", "<td>Vorname</td><td>name</td>", "<td>E-Mail</td><td>left out</td>",
                     "Small letters became capitals", "Spaces at the ends", "No column has keys"):
            check(f"and what it understood: {text}", text in shown, shown[:6000])
        check("and asks about the letters if it guessed", ("Zoë Öztürk" in shown.partition("guessed")[2]) == ("Windows" in name))
        check("the clerk has to agree", "The page understood the list rightly" in shown)
        bring(page, shown)
        had = {ident: row for ident, row in people(stand).items() if ident.startswith(letter)}
        check(f"the office has the people of {name}", had == expected, had)


def try_numbers(stand, page):
    """Numbers of a workbook are as a person sees them, and a row with a comma too many is a fault."""
    shown = send(page, "people", "numbers", workbooks.xlsx([["id", "name"], [7, "Num Ber"]], {"A": "0000"}))
    bring(page, shown)
    check("zeros in front of a number stay", "0007" in people(stand), people(stand))
    bring(page, send(page, "people", "number", workbooks.ods([["id", "name"], [2410286, "Ods Number"]])))
    check("a number has no separators", "2410286" in people(stand), people(stand))
    shown = send(page, "people", "comma", b"id,name,room\nX1,Ash, Ann,\n")
    check("a comma in a name moves no field to another column", "more or fewer fields" in shown, shown[:3000])
    exact = b"person,name,key,home\nX2,Ex Act,,\n"
    check("a list as the program has it needs no word", "What the page understood" not in send(page, "people", "exact", exact))


def try_formulas(stand, page):
    """A formula whose result is not in the file, as scripts write it, is a fault, and no empty field."""
    before, sheet = people(stand), [["id", "name", "room"], ["F1", "Form Ula", "=A1"], ["F2", "Li Wei", None]]
    for form, book in (("Excel", workbooks.xlsx(sheet)), ("LibreOffice", workbooks.ods(sheet))):
        shown = send(page, "people", "formulas", book)
        check(f"a formula without a result in a workbook of {form} is refused by its place", people(stand) == before
              and "The formula in the cell C2 has no result in this file." in shown and 'name="held"' not in shown, shown)


def try_label(page):
    """A label that is not well written is not the one under which the page asks for the list again."""
    shown = send(page, "rooms", "Rooms 2027", b"room\nA-999\n")
    check("a label that is not well written is refused, and another one named", "The label is not well written." in shown
          and "Send the list again under the label rooms-1." in shown, shown)


def try_person(stand, page):
    """A list on a person's page that the program does not understand: the page says why, and has what was entered."""
    before = stand.recorded()
    for codes, why in (([*ROOMS, "B-101"], "This list has 41 rooms. A list has up to 40."),
                       (["A-101", "A-102", "A-101"], "A-101 stands twice on this list.")):
        page.form("/office/person/B1/choose", {"text": " ".join(codes)}, page="/office/person/B1")
        shown = flat(page.get("/office/person/B1")[2])
        check(f"the page says: {why}", why in shown and f"You had entered: {' '.join(codes)}." in shown, shown)
    check("and the list on record stays", stand.recorded() == before, stand.recorded())


def try_what_if(stand, page):
    """Nor is a list lost about which the page cannot say what it would have given; and it is read as it stands on paper."""
    stand.office("close")
    stand.ask(ask="draw", seed="7" * 64, who="anna")
    stand.office("run")
    for entered, why in (("A-101 a-102 A-101", "A-101 stands twice on this list."), ("A-101; 1/2", "does not understand this."),
                         ("A-101, A-999", "No room has this code. (A-999)")):
        page.form("/office/person/B1/whatif", {"text": entered}, page="/office/person/B1")
        shown, codes = flat(page.get("/office/person/B1")[2]), " ".join(re.findall("[^ ,;]+", entered.upper()))
        check(f"asked what {entered} would have given, the page says: {why}", why in shown
              and f"You had entered: {codes}." in shown, shown)
    page.form("/office/person/B1/whatif", {"text": "a-101, A-102;"}, page="/office/person/B1")
    shown = flat(page.get("/office/person/B1")[2])
    check("commas between rooms are no fault there", "By the list A-101 A-102 this person would get" in shown, shown)


def try_choices(stand, page):
    """Choices in one column for each, or with commas between them."""
    page.form("/office/step/open", page="/office/step/open")
    body = "Matrikelnummer;Wunsch 1;Wunsch 2\nB1;a-105;a-106\nb2;A-107, a-108;\n".encode("cp1252")
    bring(page, send(page, "choices", "choices-1", body))
    lists = stand.recorded()
    check("choices come in from several columns", lists == {"B1": ["A-105", "A-106"], "B2": ["A-107", "A-108"]}, lists)
    check("the same file is known again", "came in before" in send(page, "choices", "choices-1", body))
    before = stand.recorded(), stand.ask(ask="view")["grades"]
    lists = {"choices": b"person,choices\nB1,A-106\nB2,A-105\nB1,A-107\n", "grades": b"person,grade\nB1,1\nB2,2\nB1,3\n"}
    for kind, body in lists.items():
        shown = send(page, kind, f"{kind}-twice", body)
        check(f"somebody who is twice in a list of {kind} is a fault, with both rows", bad_rows(shown) == ["4"]
              and "This person is in row 2 of this list already" in shown and 'name="held"' not in shown, shown)
    check("and nothing came in", (stand.recorded(), stand.ask(ask="view")["grades"]) == before)
    shown = send(page, "choices", "choices-twice", b"person,choices\nB1,A-106\nB9,A-105\nB1,A-107\n")
    check("it is shown with the other faults", bad_rows(shown) == ["3", "4"], shown)


def try_refusals(page):
    """A file whose columns are not known: the page says what it found, and what it wants."""
    key = "abcd" * 8
    for body, texts in {
        f"4711;Li;{key}\n".encode(): ["does not name the columns", "It has: 4711, Li, (key)", "person, name, key, home"],
        b"id;student no;name\n": ["Two columns may be the column person"],
        b"person;surname\nX1;Li\n": ["does not name the columns", "first name and last name"],
        bytes(range(128, 256)): ["does not know the character set"],
        b"\n\n \n": ["This file is empty"],
        b"person,name\n": ["and no line below them"],
    }.items():
        shown = send(page, "people", "refused", body)
        for text in texts:
            check(f"a list is refused: {text}", text in shown and key not in shown, shown[:3000])


def try_hostile(stand, page):
    """No workbook takes the memory, the time, or the page."""
    for name, body in workbooks.hostile().items():
        began = time.monotonic()
        shown = send(page, "people", "hostile", body)
        check(f"{name} is refused, and the page says what to do", "The list does not fit" in shown and "ave " in shown
              and "The page failed" not in shown, shown[:3000])
        check("in a few seconds", time.monotonic() - began < 20, time.monotonic() - began)
    status = Path(f"/proc/{stand.page.pid}/status").read_text(encoding="ascii")
    used = int(re.findall(r"VmHWM:\s+(\d+)", status)[0]) // 1024
    check(f"the page has taken {used} MB at most", used < MOST_MEMORY)
    check("a list longer than a file may be is refused", "longer than 262,144 bytes"
          in send(page, "rooms", "long", b"room\n" + b" " * 1_200_000))
    shown = send(page, "rooms", "long", b"PK\x03\x04" + bytes(1_200_000))
    check("of a workbook that is too long the page does not know how long its list is", "This workbook is too large" in shown
          and "Copy the rows of the list alone" in shown and "262,144" not in shown, shown[:3000])


def try_samples(stand, page):
    """The sample files fit as they are."""
    shown = flat(page.get("/office/lists")[2])
    for text in ("such as N-105 or 12B", "such as 2400777 or S2400777", "/office/sample/people.xlsx"):
        check(f"the page says what a list may look like: {text}", text in shown, shown[:3000])
    for kind in ("rooms", "people", "grades"):
        body = page.get(f"/office/sample/{kind}.csv")[2].encode()
        shown = send(page, kind, f"sample-{kind}", body)
        check(f"the sample of {kind} fits", "The list fits" in shown and "What the page understood" not in shown, shown[:2500])
        bring(page, shown)
    check("the sample of choices has the first line", page.get("/office/sample/choices.csv")[2].startswith("person,choices\n"))
    check("there are workbooks", all(page.get(f"/office/sample/{kind}.xlsx")[0] == 200 for kind in ("rooms", "choices")))
    check("and no others", page.get("/office/sample/keys.csv")[0] == 404 and page.get("/office/sample/keys.xlsx")[0] == 404)
    check("the samples are in the office", people(stand)["24001"] == ["Ann Ash", "N-101"])


def try_office_formats(program):
    """All of it."""
    with Stand(program) as stand:
        stand.fill(ROOMS, [])
        stand.start()
        stand.start_page()
        stand.start_proxy()
        page = Page(stand)
        try_samples(stand, page)
        try_forms(stand, page)
        try_numbers(stand, page)
        try_formulas(stand, page)
        try_label(page)
        try_refusals(page)
        try_hostile(stand, page)
        try_choices(stand, page)
        try_person(stand, page)
        try_what_if(stand, page)
        check("the page's log is empty", not stand.log("page").strip(), stand.log("page"))


if __name__ == "__main__":
    if len(sys.argv) != 2 or not Path(sys.argv[1]).exists():
        sys.exit("usage: /usr/bin/python3 deploy/trial/office_formats.py PROGRAM")
    try_office_formats(sys.argv[1])

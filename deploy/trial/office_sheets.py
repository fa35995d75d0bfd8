"""The CSV files of the office's page in a spreadsheet: /usr/bin/python3 deploy/trial/office_sheets.py PROGRAM.

Names that a spreadsheet takes for formulas go through the whole way: into the office by a list, and out of it by each
export that the page makes.
"""

import csv
import io
import re
import sys
from pathlib import Path

# The repository stays as it is.
sys.dont_write_bytecode = True

# pylint: disable=wrong-import-position  # nothing may be written before
from office_requests import Page
from stand import Stand, check

# What OWASP's page "CSV Injection" names, as far as the program takes it in a name, and names that are none of it.
FORMULAS = ["=cmd|' /C calc'!A0", "@SUM(1)", '=HYPERLINK("http://evil.example";"Ann")', "+1", "-1", "-2+3", "＝1+1",
            "＠x", "Ann;=1+1;", "Ann, =1+1", '"=1+1"', ";@x"]
PLAIN = ["Ann-Marie O'Neill", "'t Hart, Jan", "Smith = Jones", "Žák; Zoë", 'Bo "B" Li']
# Spreadsheets expect the separators of their language: some of these are in no file of the page.
SEPARATORS = ",;\t"


def in_order(text, header):
    """The records of a file by the separators that it has."""
    rows = list(csv.reader(io.StringIO(text)))
    check(f"a file of the page begins with {header}", rows[0] == header, rows[0])
    return rows[1:]


def formulas_in(text):
    """The fields that a spreadsheet takes for formulas, by whichever separator it expects."""
    found = []
    for separator in SEPARATORS:
        for row in csv.reader(io.StringIO(text), delimiter=separator):
            found += [field for field in row if re.match(r"\s*[=+\-@＝＋－＠]|[\t\r\n]", field)]
    return found


def bring_in(page, kind, label, header, rows):
    """Brings a list in, as a spreadsheet writes it, and gives the page that follows."""
    text = io.StringIO(newline="")
    csv.writer(text).writerows([header, *rows])
    fields = {"kind": kind, "label": label}
    shown = page.form("/office/lists", fields, files={"list": text.getvalue().encode()})[2]
    held = re.search(r'name="held" value="(\w+)"', shown)
    if held:
        page.form("/office/lists/bring", {"held": held[1]})
    return shown


def try_exports(page, names, phase):
    """Each file of the page that has names."""
    headers = {"register": ["person", "name", "room", "grade"], "missing": ["person", "name", "home"],
               "order": ["place", "person", "name", "grade", "word"],
               "results": ["person", "name", "old", "new", "outcome"]}
    for file in {"open": ("register", "missing"), "drawn": ("order",), "ran": ("results",)}[phase]:
        text, header = page.get(f"/office/export/{file}.csv")[2], headers[file]
        found = formulas_in(text)
        check(f"no field of {file}.csv is a formula, whatever separates fields", found == [], found)
        person, name = header.index("person"), header.index("name")
        shown = {row[person]: row[name] for row in in_order(text, header)}
        bare = {one: re.sub(r"(^|[;,])'(?=\s*[=+\-@＝＋－＠])", r"\1", name) for one, name in shown.items()}
        check(f"{file}.csv has each name, but for the apostrophe", bare == names, bare)
        check(f"{file}.csv has names that are no formula as they are", set(PLAIN) <= set(shown.values()), shown)


def try_office_sheets(program):
    """The whole way."""
    names = {f"T{number:02}": name for number, name in enumerate(FORMULAS + PLAIN, 1)}
    with Stand(program) as stand:
        stand.start()
        stand.start_page()
        stand.start_proxy()
        page = Page(stand)
        shown = bring_in(page, "people", "people-1", ["person", "name", "key", "home"],
                         [[person, name, f"key0000000000{person.lower()}", ""] for person, name in names.items()])
        check("names that are formulas come in by a list", f"All {len(names)} lines" in shown, shown[:2500])
        kept = {row[0]: row[1] for row in stand.ask(ask="view")["people"]}
        check("and are in the office as they are", kept == names, kept)
        own = {row[0]: row[1] for row in in_order(page.get("/office/export/people.csv")[2], ["person", "name", "home"])}
        check("the program's own list has each name as it is", own == names, own)
        check("this trial finds formulas where they are", formulas_in(page.get("/office/export/people.csv")[2]) != [])
        header = ["person", "name", "room", "grade"]
        listed = in_order(page.get("/office/export/register.csv")[2], header)
        shown = bring_in(page, "people", "again", header, listed)
        check("the page's list of people changes nothing if it comes in again",
              "Nobody on this list is new" in shown and {row[0]: row[1] for row in stand.ask(ask="view")["people"]} == names,
              shown)
        print_page = page.get("/office/print")[2]
        check("the page says what it does to names",
              all(part in print_page for part in ("an apostrophe", "open it in no spreadsheet")), print_page)
        page.form("/office/step/open", page="/office/step/open")
        try_exports(page, names, "open")
        page.form("/office/step/close", page="/office/step/close")
        page.form("/office/seed", {"way": "machine"}, page="/office/draw")
        page.form("/office/draw", page="/office/draw")
        try_exports(page, names, "drawn")
        page.form("/office/step/run", page="/office/step/run")
        try_exports(page, names, "ran")


if __name__ == "__main__":
    if len(sys.argv) != 2 or not Path(sys.argv[1]).exists():
        sys.exit("usage: /usr/bin/python3 deploy/trial/office_sheets.py PROGRAM")
    try_office_sheets(sys.argv[1])

"""The figures for the committee: /usr/bin/python3 deploy/trial/office_figures.py PROGRAM [FOLDER].

A small college, whose results follow from its lists whatever the order is, so that its figures can be counted by hand. They come
when a round is published, and outlast its lists. They follow the office back to a copy; a round that is given up has none; and
they name nobody, and no small group. The folder gets photographs.
"""

import base64
import contextlib
import csv
import io
import json
import sqlite3
import sys
from pathlib import Path

# The repository stays as it is.
sys.dont_write_bytecode = True

# pylint: disable=wrong-import-position,wrong-import-order  # nothing may be written before
from office_requests import Page
from stand import OFFICE, Stand, check, fail, key_of

sys.path.append(str(OFFICE))

from figures_counted import coarse

Wishes = dict[str, tuple[str, list[str]]]  # of each person the home and the list

# 28 people, by what becomes of them. Grade 0: six tenants of house A change to free rooms of house B (what stands below their own
# room counts for nothing), and seven tenants, one of them in a room without a house, hand in no list. Grade 1: five newcomers want
# a room that its tenant keeps, and then one that is free; six want nothing else than that room. Grade 2: one newcomer gets the
# room of somebody who leaves. And two withdraw.
CHANGE = {f"CHANGE{number}": (f"A-{number}", [f"B-{number}", f"A-{number}", "A-7"]) for number in range(1, 7)}
STAY: Wishes = {f"STAY{number}": (room, []) for number, room in enumerate([*(f"A-{number}" for number in range(7, 13)), "TOWER"])}
LATER = {f"LATER{number}": ("", ["A-7", f"B-{number}"]) for number in range(7, 12)}
NOTHING = {f"NOTHING{number}": ("", ["A-7"]) for number in range(6)}
LAST = {"LAST1": ("", ["B-12"])}
AWAY: Wishes = {"LEAVES1": ("B-12", []), "AWAY0": ("", []), "AWAY9": ("A-13", [])}
PEOPLE = {**CHANGE, **STAY, **LATER, **NOTHING, **LAST, **AWAY}
ROOMS = [*(f"A-{number}" for number in range(1, 14)), *(f"B-{number}" for number in range(1, 13)), "TOWER", "SHUT-1"]
GRADES = {**dict.fromkeys([*LATER, *NOTHING], 1), "LAST1": 2}

# Counted by hand, and rounded down to multiples of five: 25 participants, of whom 6 + 5 + 6 + 1 want another room. 6 + 1 get
# their first choice, 5 a later one, 7 keep their room, and 6 get none.
EVERYBODY = {"people": 25, "wishing": 15, "first": 5, "later": 5, "keep": 5, "none": 5}
BY_GRADE = {
    "0": {"people": 10, "first": 5, "later": 0, "keep": 5, "none": 0},  # 13 people: 6 change, 7 stay
    "1": {"people": 10, "first": 0, "later": 5, "keep": 0, "none": 5},  # 11 people: 5 and 6
    "2": {"people": 0, "first": 0, "later": 0, "keep": 0, "none": 0},   # one
}
BY_HOUSE = {
    "": {"rooms": 1, "named": 0, "wanted": 0, "first": 0, "later": 0, "keep": 0},
    "A": {"rooms": 13, "named": 10, "wanted": 10, "first": 0, "later": 0, "keep": 5},  # 11 want A-7, 6 stay
    "B": {"rooms": 12, "named": 10, "wanted": 5, "first": 5, "later": 5, "keep": 0},   # 6 + 5 + 1 name it, 6 + 1 first
}
CSV = """\
1,all,all,,25,15,5,5,5,5,,
1,grade,0,,10,,5,fewer than 5,5,fewer than 5,,
1,grade,1,,10,,fewer than 5,5,fewer than 5,5,,
1,grade,2,,fewer than 5,,fewer than 5,fewer than 5,fewer than 5,fewer than 5,,
1,house,(no house),1,,,fewer than 5,fewer than 5,fewer than 5,,fewer than 5,fewer than 5
1,house,A,13,,,fewer than 5,fewer than 5,5,,10,10
1,house,B,12,,,5,5,fewer than 5,,10,5
1,room,A-7,,,,,,,,10,10
1,room,B-7,,,,,,,,fewer than 5,fewer than 5
"""
WHO_TAKE_NO_PART = ["going LEAVES1", "withdraw AWAY0", "withdraw AWAY9"]
LISTS = "".join(["person,choices\n", *(f"{person},{' '.join(rooms)}\n" for person, (_, rooms) in PEOPLE.items() if rooms)])


def enrol(stand):
    """Rooms, people and grades, by SQLite itself."""
    people = [(person, f"Resident Number {person.title()}", key_of(person), home or None) for person, (home, _) in PEOPLE.items()]
    with contextlib.closing(sqlite3.connect(stand.file)) as database:
        database.executemany("INSERT INTO room VALUES (?, ?)", [(room, int(room == "SHUT-1")) for room in ROOMS])
        database.executemany("INSERT INTO person VALUES (?, ?, ?, ?, 0)", people)
        database.executemany("INSERT INTO grade VALUES (?, ?)", GRADES.items())
        database.commit()


def do(stand, *lines):
    """Lines that the keeper has to carry out, and its answer."""
    answer = stand.ask(ask="do", lines=list(lines))
    if not answer.get("done"):
        fail((lines, answer))
    return answer


def lead_to(stand, *steps, label=""):
    """Goes through steps of the round. With a label, the lists come in once it is open."""
    for step in steps:
        if step == "draw":
            if not stand.ask(ask="draw", seed="0" * 64)["done"]:
                fail(step)
        else:
            do(stand, step)
        if step == "open" and label:
            do(stand, *WHO_TAKE_NO_PART)
            body = base64.b64encode(LISTS.encode()).decode()
            if not stand.ask(ask="import", kind="choices", label=label, body=body)["done"]:
                fail(label)


def rounds(stand):
    """The rounds of which there are figures, with their tables."""
    return {number: tables for number, _, tables in stand.ask(ask="figures")["rounds"]}


def kept(stand):
    """The numbers of the rounds in the file."""
    return sorted(json.loads((stand.data / "figures").read_text(encoding="utf-8"))["rounds"])


def back_before(stand, why):
    """The office goes back to the newest copy that was made before something, and the name of the copy of the office of now."""
    name = [name for name, _, said in stand.ask(ask="backups")["backups"] if said.startswith(f"before {why}")][-1]
    return stand.ask(ask="back", name=name)["name"]


def try_taking(stand, page):
    """A round has figures from when it is published, and keeps them when it is settled."""
    status, _, text = page.get("/office/committee")
    check("before a round is published there are no figures", status == 200 and "There are no figures yet" in text, text)
    lead_to(stand, "open", "close", "draw", "run", label="first")
    check("results that are not published give none", rounds(stand) == {} and not (stand.data / "figures").exists())
    page.form("/office/step/publish", page="/office/step/publish")
    found = rounds(stand)[1]
    check("a published round has the figures that were counted by hand", found["all"] == {"all": EVERYBODY}, found["all"])
    check("by grade", found["grades"] == BY_GRADE, found["grades"])
    check("by house", found["houses"] == BY_HOUSE, found["houses"])
    wanted = {room: counted for room, counted in found["rooms"].items() if any(counted.values())}
    check("and by room", wanted == {"A-7": {"named": 10, "wanted": 10}}, wanted)
    check("of all rooms but those out of use", set(found["rooms"]) == set(ROOMS) - {"SHUT-1"}, sorted(found["rooms"]))
    do(stand, "settle")
    check("they stay when the round is settled", rounds(stand) == {1: found} and stand.recorded() == {}, rounds(stand))


def try_shown(stand, page):
    """What the page, the list in CSV and the file show, and what not."""
    status, _, text = page.get("/office/committee")
    check("the page shows them", status == 200 and "Round 1, published" in text and "fewer than 5" in text, text[:800])
    check("the page of what can be printed leads there", 'href="/office/committee"' in page.get("/office/print")[2])
    listed = page.get("/office/committee.csv")[2]
    header, *rows = csv.reader(io.StringIO(listed))
    check("a day is that of the publication", all(len(row) == len(header) and row[1][:2] == "20" for row in rows), rows[0])
    shown = [[row[0], *row[2:]] for row in rows]
    check("the list in CSV is right", all(row in shown for row in csv.reader(io.StringIO(CSV))), shown)
    file = (stand.data / "figures").read_text(encoding="utf-8")
    everything = text + listed + file
    named = [one for one in PEOPLE if one in everything or one.title() in everything]
    check("nobody is named anywhere", not named and "Resident" not in everything, named)
    check("the file is for its owner alone", (stand.data / "figures").stat().st_mode & 0o777 == 0o600)
    try_shares(stand, page, file)


def try_shares(stand, page, file):
    """The share of the first choices that are met lies between two percentages, since both of its numbers are rounded."""
    # 25 stands for 25 to 29, and 35 for 35 to 39: from 25 of 39, which is 64.1 %, to 29 of 35, which is 82.9 %.
    for wishing, first, said in ((225, 5, "5, 2 to 4 %"), (35, 25, "25, 64 to 83 %"), (225, 0, "fewer than 5, 0 to 2 %"),
                                 (100, 100, "100, 96 to 100 %"), (20, 5, "5")):
        text = file.replace('"wishing": 15, "first": 5', f'"wishing": {wishing}, "first": {first}')
        (stand.data / "figures").write_text(text, encoding="utf-8")
        shown = page.get("/office/committee")[2]
        check(f"of {wishing} the page says: {said}", f"<td>{said}</td></tr>" in shown, shown[:4000])
    (stand.data / "figures").write_text(file, encoding="utf-8")


def try_going_back(stand, page):
    """The office goes back: the figures are those of the round as it is now."""
    first = rounds(stand)
    settled = back_before(stand, "publish")
    check("a round that is not published any more shows no figures", rounds(stand) == {}, rounds(stand))
    stand.ask(ask="back", name=settled)
    check("and on the way back from there it does", rounds(stand) == first)
    back_before(stand, "close")
    do(stand, *(f"choose {person}" for person in NOTHING))
    lead_to(stand, "close", "draw", "run", "publish", "settle")
    now = rounds(stand)[1]["all"]["all"]
    # Of the 18 who wanted another room 12 are left.
    check("another result replaces the figures", now == {**EVERYBODY, "wishing": 10}, now)
    try_other_branch(stand, settled, first)
    back_before(stand, "publish")
    do(stand, "publish", "settle")
    check("of lines that publish and settle at once, too", rounds(stand)[1]["all"]["all"] == now, rounds(stand))
    back_before(stand, "publish (1), settle (1)")
    do(stand, "cancel")
    check("a round that is given up keeps none", rounds(stand) == {} and kept(stand) == [], kept(stand))
    lead_to(stand, "open", "close", "draw", "run", "publish", "settle", label="second")
    check("the next round has its own", list(rounds(stand)) == [2] and kept(stand) == ["2"], kept(stand))
    leads = page.get("/office/committee/1")[1]["location"]
    check("the address of a round without figures leads to the newest one", leads == "/office/committee", leads)


def try_other_branch(stand, settled, first):
    """The office goes back to where the other result was published, or settled: the figures are of that one."""
    second, days = rounds(stand), stand.ask(ask="figures")["rounds"][0][1]
    copies = [name for name, _, said in stand.ask(ask="backups")["backups"] if said.startswith("before settle")]
    other = stand.ask(ask="back", name=settled)["name"]
    check("after a way back to where another result was settled, the figures are of that one", rounds(stand) == first,
          rounds(stand))
    check("with the day of its publication", stand.ask(ask="figures")["rounds"][0][1] == days)
    stand.ask(ask="back", name=other)
    check("and of the later one after the way back from there", rounds(stand) == second, rounds(stand))
    published = stand.ask(ask="back", name=copies[0])["name"]
    check("where it was only published, they are those of the results that are published", rounds(stand) == first, rounds(stand))
    aside = [(stand.data / "backups" / name, stand.data / name) for name in copies]
    for place, elsewhere in aside:
        place.rename(elsewhere)
    stand.ask(ask="back", name=published)
    check("where nobody can count them any more, there are none", rounds(stand) == {}, rounds(stand))
    for place, elsewhere in aside:
        elsewhere.rename(place)


def try_damaged(stand, page):
    """A damaged file is named, and nothing else breaks. Where it cannot be written, the round goes on, and that is said."""
    file = stand.data / "figures"
    whole = file.read_text(encoding="utf-8")
    other = '{"rounds": {"2": {"published": "2027-06-01", "moves": true, "tables": {"all": 5}}}}'
    for text in ("", "[]", '{"rounds": {"x": 1}}', other, whole.replace('"people": 25', '"people": "25"'),
                 whole.replace("named", "name"), whole.replace('"all": {"all"', '"all": {"some"'), whole[:-30]):
        file.write_text(text, encoding="utf-8")
        status, _, shown = page.get("/office/committee")
        check(f"a damaged file is said: {text[:30]!r}", status == 200 and f"damaged ({file})" in shown, shown[:500])
        check("and the list in CSV has no figures", page.get("/office/committee.csv")[2].count("\n") == 1)
        check("and other pages are there", page.get("/office/")[0] == 200 and page.get("/office/print")[0] == 200)
    (stand.data / "figures.part").mkdir()
    lead_to(stand, "open", "close", "draw", "run")
    answer = do(stand, "publish")
    check("where it cannot be written, the round is published, and that is said", "could not be kept" in answer["unkept"], answer)
    set_aside = [one.read_text(encoding="utf-8") for one in stand.data.glob("figures.damaged-*")]
    check("the damaged file has another name, and that is said", set_aside == [text] and ".damaged-" in answer["unkept"], answer)
    (stand.data / "figures.part").rmdir()
    status, _, beside = stand.command("do", "settle")
    check("they are taken once more before the round is settled, also one in which nobody moves",
          status == 0 and "figures" not in beside and list(rounds(stand)) == [3], (status, beside))


def try_small_groups():
    """A total may leave one number alone for a small group, by numbers that were made for it. Such a table is left out."""
    def tables(nobody):
        """Grades in which so many get no room, and all others of whom there are ten keep theirs."""
        rows = {str(grade): {"people": 10 + none, "first": 0, "later": 0, "keep": 10, "none": none}
                for grade, none in enumerate(nobody)}
        every = {one: sum(row[one] for row in rows.values()) for one in ("people", "first", "later", "keep", "none")}
        return {"all": {"all": {"wishing": 0, **every}}, "grades": rows}
    # Five groups of up to 4 are 20 only if each is 4, and 20 is what is shown of a total of 20 to 24.
    check("a table that gives small groups away is left out", list(coarse(tables([4, 4, 4, 4, 4]))) == ["all"])
    # A total of 19 is shown as 15: then each group may be 3 or 4, or fewer.
    check("and no other", list(coarse(tables([4, 4, 4, 4, 3]))) == ["all", "grades"])
    # Results that contradict each other, as after somebody wrote into the file: of 60 people with a result 25 got a room at all.
    wrong = {"all": {"all": {"people": 60, "wishing": 60, "first": 5, "later": 5, "keep": 5, "none": 5}}}
    check("a table that contradicts itself is left out, and soon", not coarse(wrong))
    shown = coarse(tables([4, 4, 4, 4, 3]))["all"]["all"]
    check("a total is rounded, too", shown == {"wishing": 0, "people": 65, "first": 0, "later": 0, "keep": 50, "none": 15}, shown)


def take_photographs(stand, shots):
    """The page, with two rounds. The browser is asked for here alone."""
    from office_browser import Clerk  # pylint: disable=import-outside-toplevel
    with Clerk(stand, "anna", shots) as clerk:
        clerk.visit("/office/print")
        clerk.press("Figures of the published rounds")
        clerk.shot("30-committee")
        check("the browser complains of nothing", not clerk.complaints(), clerk.complaints())


def try_office_figures(program, shots=None):
    """All of it."""
    try_small_groups()
    with Stand(program) as stand:
        enrol(stand)
        stand.start()
        stand.start_page()
        stand.start_proxy()
        page = Page(stand)
        try_taking(stand, page)
        try_shown(stand, page)
        try_going_back(stand, page)
        if shots:
            take_photographs(stand, shots)
        try_damaged(stand, page)


if __name__ == "__main__":
    if len(sys.argv) not in (2, 3) or not Path(sys.argv[1]).exists():
        sys.exit("usage: /usr/bin/python3 deploy/trial/office_figures.py PROGRAM [FOLDER]")
    if len(sys.argv) == 3:
        Path(sys.argv[2]).mkdir(parents=True, exist_ok=True)
    try_office_figures(sys.argv[1], Path(sys.argv[2]) if len(sys.argv) == 3 else None)

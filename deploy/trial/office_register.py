"""What a clerk does on the office's page before the round: lists are imported, and the register is kept."""

import re

from office_college import PEOPLE
from printed import cut_off
from stand import check

# A key on a slip, in groups of four signs.
KEY = r"Your key for the room exchange: ((?:[0-9a-f]{4} ?){8})"


def bring_lists_in(clerk, college):
    """Rooms and people, first with faults and then without. The keys come from the printed slips."""
    clerk.reads("No round is under way")
    clerk.shot("01-empty")
    clerk.try_list("rooms", college.write("rooms.csv", ["room"], [[room] for room in college.rooms]))
    clerk.reads("All 320 lines of the list of rooms fit")
    clerk.press("Bring in the list")
    clerk.reads("The list is in, with 320 lines.")
    clerk.shot("02-lists")
    bring_people_in(clerk, college)
    send_people_again(clerk, college)
    bring_grades_in(clerk, college)


def bring_people_in(clerk, college):
    """People: a list with a fault of each kind, and then the list without."""
    wrong = college.people_rows()
    wrong[4][1], wrong[8][3], wrong[19][0], wrong[29][0], wrong[39][2] = "", "Z-999", "R.020", "R029", "short"
    wrong[49] = ["R050", "No Fields"]
    wrong[59][3] = wrong[60][3] = "A-101"
    clerk.try_list("people", college.write("wrong.csv", ["person", "name", "key", "home"], wrong))
    rows = re.findall(r"^(\d+) (R\.?\d+) ", clerk.text(), re.M)
    check(
        "all faults of a list are shown, with their rows",
        [row for row, _ in rows][:6] == ["6", "10", "21", "31", "41", "51"] and len(rows) >= 7,
        rows,
    )
    clerk.shot("03-faults")
    clerk.try_list("people", college.write("people.csv", ["person", "name", "key", "home"], college.people_rows()))
    clerk.reads("The page made 300 keys")
    slips = re.findall(rf"\((R\d{{3}})\) made on [-\d]+ at [\d:]+ \S+\s+{KEY}", clerk.text())
    college.keys = {person: key.replace(" ", "") for person, key in slips}
    check("each slip has a key of its own", len(set(college.keys.values())) == PEOPLE, len(college.keys))
    clerk.shot("04-slips")
    print(f"      the slips are {clerk.pdf('04-slips')} sheets")
    beyond = cut_off((clerk.shots / "office-04-slips.pdf").read_bytes())
    check("each line to cut along is on the paper", beyond is not None and beyond < 0, beyond)
    clerk.tick()
    clerk.press("Bring in the list")
    clerk.reads("The list is in, with 300 lines.")


def send_people_again(clerk, college):
    """The same list, one without two of its people, and one as an office has it: nothing is brought in."""
    rows = college.people_rows()
    clerk.try_list("people", college.folder / "people.csv", label="again")
    clerk.reads("All 300 people of this list are in the register already.", "no key was made")
    clerk.shot("04-again")
    clerk.try_list("people", college.write("fewer.csv", ["person", "name", "key", "home"], rows[2:]))
    clerk.reads("All 298 people of this list", "2 people of the register are not on this list")
    clerk.shot("04-departed")
    free = next(room for room in college.rooms if room not in college.homes.values())
    old = [[row[0], *row[1].split(" ", 1)[::-1], row[3]] for row in rows[2:9]]
    text = "\n".join(";".join(row) for row in [["Matrikelnummer", "Name", "Vorname", "Zimmer"], *old,
                                               ["n001 ", "Müller", "Jörg", free.lower()], ["n002", "Öz ", "Ida  M", ""]])
    (college.folder / "office.csv").write_bytes(text.encode("cp1252", "replace"))
    clerk.try_list("people", college.folder / "office.csv")
    clerk.reads("7 people of this list are in the register already", "2 are new", "The page understood the list rightly",
                "CSV with semicolons, in the character set of Windows", "Jörg Müller", free)
    clerk.shot("04-understood")
    clerk.press("No, go back")


def bring_grades_in(clerk, college):
    """Grades for some of the people, first with one that is none."""
    grades = [[person, number % 3] for number, person in enumerate(college.people[:60])]
    clerk.try_list("grades", college.write("grades.csv", ["person", "grade"], [*grades, ["R061", 10]]))
    clerk.reads("Write a grade: one digit from 0 to 9.")
    clerk.try_list("grades", college.write("grades.csv", ["person", "grade"], grades))
    clerk.press("Bring in the list")
    clerk.reads("The list is in, with 60 lines.")


def keep_the_register(clerk, stand, college):
    """Search, one person, rooms, and many people at once."""
    clerk.visit("/office/register")
    clerk.put("text", "zoë")
    clerk.press("Search")
    clerk.shot("05-register")
    check("what was searched for is in no address", clerk.driver.current_url.endswith("/office/register"))
    tenant = next(person for person in college.people if person in college.homes)
    clerk.visit(f"/office/person/{tenant}")
    clerk.shot("06-person")
    clerk.press(f"Leave {college.homes[tenant]}")
    clerk.press("Yes: leave")
    clerk.put("text", college.homes[tenant].lower())
    clerk.press("Move in")
    clerk.reads(college.homes[tenant])
    clerk.put("grade", "7")
    clerk.press("Set the grade")
    clerk.reads("Done.")
    correct(clerk, stand, college, tenant)
    keep_the_rooms(clerk)
    remove_many(clerk)


def correct(clerk, stand, college, person):
    """A new key and a corrected name for somebody with a room and the grade 7, who keep both."""
    clerk.press("Make a new key")
    clerk.press("Yes: make a new key")
    clerk.reads("This page shows the key once")
    college.keys[person] = re.findall(KEY, clerk.text())[0].replace(" ", "").strip()
    clerk.shot("07-key")
    clerk.press("Go on")
    clerk.put("name", "Zoë  Corrected ")
    clerk.press("Correct the name")
    clerk.reads("The name is corrected.")
    college.names[person] = "Zoë Corrected"
    view = stand.ask(ask="view")
    row = next(row for row in view["people"] if row[0] == person)
    check("a corrected name is on record", row[1] == college.names[person], row)
    check("with a new key the room stays", row[2] == college.homes[person], row)
    check("and so does the grade", dict(view["grades"]).get(person) == 7, view["grades"])


def keep_the_rooms(clerk):
    """All rooms, and the question before one is shut in which somebody lives."""
    clerk.visit("/office/rooms")
    clerk.shot("08-rooms")
    clerk.press("Out of use ...")
    clerk.shot("09-shut")
    clerk.press("No, go back")


def remove_many(clerk):
    """Many people at once, by a list of their identifiers."""
    clerk.visit("/office/many")
    clerk.put("text", "R298 R299, r300\nNOBODY")
    clerk.tick("remove")
    clerk.press("Show who they are")
    clerk.reads("No person has the identifier NOBODY")
    clerk.put("text", "R298 R299, r300")
    clerk.tick("remove")
    clerk.press("Show who they are")
    clerk.shot("10-many")
    clerk.press("Yes: remove them")
    clerk.reads("Done for 3 people", "of 297 people")

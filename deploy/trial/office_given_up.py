"""Two rounds are given up one after the other: /usr/bin/python3 deploy/trial/office_given_up.py PROGRAM.

What came back into the second round by an import says nothing of what people want: who was to leave or had withdrawn in the first
one is named until that is back, too. What people said themselves in the second round counts.
"""

import re
import shutil
import sys
from pathlib import Path

# The repository stays as it is.
sys.dont_write_bytecode = True

# pylint: disable=wrong-import-position  # nothing may be written before
from office_forms import boxes, flat, seen_at, send_as_it_is
from office_requests import Page, hand_in
from office_second import away, fill, finish_round
from stand import Stand, check, key_of

LISTS = {"P01": "A-109", "P02": "A-110 A-111", "P03": "A-111", "P04": "A-112", "P05": "A-109 A-112", "P06": "A-110",
         "P07": "A-112", "P08": "A-109"}
GOING, WITHDRAWN = ["P01", "P02", "P05"], ["P04", "P06"]
OWN, SAME = "P05", "P06"  # in the second round one hands in another list, and one withdraws again
BACK = [person for person in LISTS if person != OWN]  # whose list comes back into the second round

NOTES = "ere to leave the college, and take part now (P01, P02); had withdrawn, and take part now (P04)"


def imported(stand, label, people):
    """Lists of the first round are imported, as a clerk does without the page."""
    text = "".join(f"{person},{LISTS[person]}\n" for person in people)
    answer = stand.script("rooms-office", "import", "choices", label, "-", given=f"person,choices\n{text}")
    check(f"the list {label} comes in", answer == f"added {len(people)}\n", answer)


def given_up_twice(stand):
    """The second round has lists of the first one, without the notes and withdrawals, and what two people said. It is given up."""
    for line in ("open", *(f"choose {person} {rooms}" for person, rooms in LISTS.items()), *(f"going {one}" for one in GOING),
                 *(f"withdraw {one}" for one in WITHDRAWN), "cancel", "shut A-111", "open"):
        stand.office(line)
    LISTS["P02"] = "A-110"
    imported(stand, "back-1", [person for person in BACK if person != "P03"])
    check("one hands in another list", hand_in(stand, key_of(OWN), ["A-112"]) == 200)
    for line in (f"withdraw {SAME}", "reopen A-111", "cancel", "open"):
        stand.office(line)


def try_named(page, notes):
    """The overview, and the question before closing."""
    for path in ("/office/", "/office/step/close"):
        shown = seen_at(page, path)
        check(f"{path} names who was to leave and who had withdrawn in the first round", notes in shown, shown)
    return shown


def try_given_up_twice(stand, page):
    """All that is not back is named once, and the form of the first round ticks it."""
    shown = try_named(page, NOTES)
    lists = "lists that are not back (P01, P02, P04, P05, P07, P08)"
    check("who withdrew in the second round, and the lists that it has, are named with it alone",
          f"ad withdrawn, and take part now ({SAME}); {lists}" in shown and shown.count("(P03)") == 1, shown)
    newer, older = re.findall(r'href="(/office/given-up/[^"]+)"', page.get("/office/")[2])[:2]
    shown, ticked = seen_at(page, older), boxes(page.get(older)[2])
    check("the form of the first round names who said something in the second one", f"people, too: {OWN}, {SAME}. They" in shown,
          shown)
    expected = {**{("going", one): one != OWN for one in GOING}, **{("withdrawn", one): one != SAME for one in WITHDRAWN},
                **{("list", one): one not in (OWN, SAME) for one in LISTS}, ("sure", "yes"): False}
    check("and ticks everybody else", ticked == expected, ticked)
    send_as_it_is(page, newer)
    check("the second round comes back", stand.recorded() == {
        one: rooms.split() for one, rooms in {**LISTS, OWN: "A-112"}.items() if one != "P03"}, stand.recorded())
    check("with the withdrawal", away(stand) == (set(), {SAME}), away(stand))
    shown = try_named(page, NOTES)
    check("and a list without a room that was out of use", "lists that are not back (P03); lists without rooms that are in use "
          "again (P02)" in shown, shown)
    send_as_it_is(page, older)
    check("then the first round comes back", away(stand) == ({"P01", "P02"}, {"P04", SAME}), away(stand))
    check("and nothing is left", "which was given up" not in seen_at(page, "/office/"), seen_at(page, "/office/"))


def try_own_list(stand, page):
    """Who hands in a list without a room that is in use again has left the room out: the page does not put it back."""
    old = ["A-109", "A-112", "A-110"]
    for line in ("cancel", "open", f"choose P07 {' '.join(old)}", f"choose P08 {' '.join(old)}", "shut A-112", "cancel",
                 "reopen A-112", "open"):
        stand.office(line)
    for person, what in (("P07", "hands in a list anew"), ("P08", "replaces the list that came back")):
        check(f"{person} {what}", hand_in(stand, key_of(person), ["A-109", "A-110"]) == 200)
        link = re.findall(r'href="(/office/given-up/[^"]+)"', page.get("/office/")[2])[0]
        check("the overview does not name it", "in use again" not in seen_at(page, "/office/"), seen_at(page, "/office/"))
        check("nor does the page change it", ("longer", "yes") not in boxes(page.get(link)[2]), page.get(link)[2])
        if person == "P07":
            send_as_it_is(page, link)
            check("the other one's list comes back", stand.recorded()["P08"] == old, stand.recorded())
    check("both lists stay", stand.recorded()["P07"] == stand.recorded()["P08"] == ["A-109", "A-110"], stand.recorded())


def undo(page, person):
    """A clerk undoes a withdrawal by the steps of the page, up to the last one. What the last page says."""
    place = f"/office/undo/{person}"
    for step in ({"step": "cancel", "sure": "yes"}, {"step": "open"}):
        page.form(place, step, page=place)
    link = re.findall(r'href="(/office/given-up/[^"]+)"', page.get(place)[2])
    return seen_at(page, send_as_it_is(page, link[0]) if link else place)


def try_undone(stand, page):
    """A clerk undoes a withdrawal of somebody without a list. No other clerk reads that it is not back."""
    for line in ("cancel", "open", "withdraw P09", "withdraw P10"):
        stand.office(line)
    shown = undo(page, "P09")
    check("all else is back", "All else is back" in shown and away(stand) == (set(), {"P10"}), shown)
    for path in ("/office/", "/office/step/close"):
        check(f"{path} does not name who was undone", "P09)" not in seen_at(page, path), seen_at(page, path))
    copy = max(name for name, _, why in stand.ask(ask="backups")["backups"] if "before cancel" in why)
    shown = page.get(f"/office/given-up/{copy}")[2]
    check("nor does the form tick them for another clerk", boxes(shown)[("withdrawn", "P09")] is False
          and "Taken out: this does not come back" in shown, shown)
    for line in ("cancel", "open", "withdraw P11"):
        stand.office(line)
    shown = undo(page, "P11")
    check("also if nobody else had anything", "It is undone" in shown and "P11)" not in seen_at(page, "/office/"),
          (shown, seen_at(page, "/office/")))


def try_several_lines(stand, page):
    """A round is given up, and the next one opened, by several lines at once. It comes back as any other."""
    stand.office("withdraw P12")
    told = stand.command("lines", given="cancel\nopen\n")
    copy = max(name for name, _, why in stand.ask(ask="backups")["backups"] if "before cancel (1), open (1)" in why)
    check("a round is given up by one of several lines", told[0] == 0, told)
    for path in ("/office/", "/office/step/close"):
        shown = page.get(path)[2]
        check(f"{path} has what of it is not back", "ad withdrawn, and take part now (P12)" in flat(shown), shown)
    check("the overview leads to it", f"/office/given-up/{copy}" in page.get("/office/")[2], copy)
    number, gone = stand.ask(ask="view")["number"] - 1, stand.ask(ask="given-up")["gone"]
    check("its copy is here", number not in gone, gone)
    send_as_it_is(page, f"/office/given-up/{copy}")
    check("and it comes back", "P12" in away(stand)[1], away(stand))
    told = stand.command("lines", given="cancel\nopen\ncancel\n")
    check("of two rounds that were given up at once one has a copy", stand.ask(ask="given-up")["gone"] == [number + 2], told)
    stand.office("open")


def try_gone(stand, page):
    """The copy of a round that was given up is not here, as on a new machine. The journal knows the round, and the page says so
    until a round is settled."""
    for line in ("cancel", "open", "withdraw P12", "cancel"):
        stand.office(line)
    number, gone = stand.ask(ask="view")["number"], "The copy from before it was given up is not on this machine, or is damaged."
    copies = sorted(name for name, _, why in stand.ask(ask="backups")["backups"] if "before cancel" in why)
    shutil.rmtree(stand.data / "backups" / copies[-1])
    shown = seen_at(page, "/office/")
    check("while no round is open the overview says what cannot come back", f"Round {number} was given up {gone}" in shown, shown)
    stand.office("open")
    for path in ("/office/", "/office/step/close"):
        shown = seen_at(page, path)
        check(f"{path} says that nobody knows what is not back", re.search(
            f"From round {number}, which was given up:? [Nn]obody knows here what of it is not back: the copy", shown), shown)
    shown = seen_at(page, f"/office/given-up/{copies[-3]}")
    check("so does the page of a round before", f"Round {number} was given up later, and nobody knows of whom" in shown, shown)
    check("and nobody is led to a copy that is not here", copies[-1] not in page.get("/office/")[2])
    finish_round(stand)
    stand.office("settle")
    check("once a round is settled nothing says so", "was given up" not in seen_at(page, "/office/"), seen_at(page, "/office/"))
    for line in ("open", "cancel"):
        stand.office(line)
    copy = max(name for name, _, why in stand.ask(ask="backups")["backups"] if "before cancel" in why)
    (stand.data / "backups" / copy / "rooms.db").write_bytes(b"no office")
    shown = seen_at(page, "/office/")
    check("a copy of which nobody can read the round is named, too", f"Round {number + 2} was given up {gone}" in shown, shown)


def try_office_given_up(program):
    """All of it."""
    with Stand(program) as stand:
        fill(stand)
        stand.start()
        stand.start_page()
        stand.start_proxy()
        page = Page(stand)
        given_up_twice(stand)
        try_given_up_twice(stand, page)
        try_own_list(stand, page)
        try_undone(stand, page)
        try_several_lines(stand, page)
        try_gone(stand, page)
        check("the page has noted no fault of its own", "rooms-page:" not in stand.log("page"), stand.log("page"))


if __name__ == "__main__":
    if len(sys.argv) != 2 or not Path(sys.argv[1]).exists():
        sys.exit("usage: /usr/bin/python3 deploy/trial/office_given_up.py PROGRAM")
    try_office_given_up(sys.argv[1])

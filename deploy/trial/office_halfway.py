"""A round that was given up comes back, and the keeper is killed half way, once the lists are in and before the notes and the
withdrawals: /usr/bin/python3 deploy/trial/office_halfway.py PROGRAM.

Until all is back, the overview and the question before the round is closed name who was to leave and who had withdrawn. Nobody is
named who has handed in a list, or whom the clerk has taken out.
"""

import re
import sys
from pathlib import Path

# The repository stays as it is.
sys.dont_write_bytecode = True

# pylint: disable=wrong-import-position  # nothing may be written before
from between import Between
from office_forms import boxes, filled_in, seen_at, send_as_it_is
from office_requests import Page, hand_in
from office_second import HOMES, away, fill
from stand import Stand, check, key_of

LISTS = {"P01": "A-109", "P02": "A-110 A-111", "P03": "A-111", "P04": "A-112", "P05": "A-109 A-112", "P06": "A-110", "P07": "A-112"}
GOING, WITHDRAWN = ["P01", "P05"], ["P02", "P04", "P06"]
MISTAKE, NEWER, SAME = "P05", "P04", "P06"  # noted by mistake; hands in another list; hands in the same list

# The boxes of who is not back yet, and whether each is ticked.
LEFT = {("going", "P01"): True, ("going", MISTAKE): False, ("withdrawn", "P02"): True, ("withdrawn", NEWER): False,
        ("withdrawn", SAME): False, ("sure", "yes"): False}


def given_up(stand):
    """A round with lists, notes and withdrawals is given up, and the next one is open."""
    for line in ("open", *(f"choose {person} {rooms}" for person, rooms in LISTS.items()), *(f"going {one}" for one in GOING),
                 *(f"withdraw {one}" for one in WITHDRAWN), "cancel", "open"):
        stand.office(line)


def stopped_half_way(stand, page, between, link):
    """The clerk takes out who was noted by mistake, whose list comes back, and the keeper is killed before the first note."""
    form = [*filled_in(page, link, but=MISTAKE), ("list", MISTAKE)]
    between.before_next("kill -9 $KEEPER $PPID")
    led = page.post(link, form)[1]["location"]
    stand.keeper.wait()
    stand.start()
    check("the lists are back, and nobody leaves or has withdrawn", stand.recorded() == {
        **{person: rooms.split() for person, rooms in LISTS.items()}, NEWER: ["A-109"]} and away(stand) == (set(), set()),
        (stand.recorded(), away(stand)))
    check("the page that follows keeps what the clerk has ticked", boxes(page.get(led)[2]) == LEFT, boxes(page.get(led)[2]))
    for language in ("de", "en"):
        place = page.post("/office/language", {**page.hidden(led, "/office/language"), "language": language})[1]["location"]
        check(f"also in another language: {language}", place == led and boxes(page.get(place)[2]) == LEFT, (led, place))


def try_named(page, left, link):
    """The overview, the question before closing, and the page of the round that was given up, opened anew."""
    for path in ("/office/", "/office/step/close"):
        shown = seen_at(page, path)
        check(f"{path} names who was to leave and who had withdrawn", left in shown, shown)
    shown = page.get(link)[2]
    check("the page opened anew ticks them, and nobody who has handed in a list or was taken out", boxes(shown) == LEFT,
          boxes(shown))
    check("and says of these that they have a list", shown.count("Has a list on record in this round") == 3, shown)


def try_language(page, link):
    """The button of another language leads back to this page, and carries nothing of it."""
    form = page.get(link)[2].partition('action="/office/language"')[2].partition("</form>")[0]
    check("the button of another language leads back to this page", re.findall('name="back" value="([^"]*)"', form) == [link], form)
    check("and its form has nobody's list", not [person for person in LISTS if person in form], form)


def try_office_halfway(program):
    """All of it."""
    with Stand(program) as stand:
        fill(stand)
        between = Between(stand)
        stand.start()
        stand.start_page()
        stand.start_proxy()
        page = Page(stand)
        check("who is to leave has a room", set(GOING) < set(HOMES))
        given_up(stand)
        check("somebody hands in another list, and somebody the same one", hand_in(stand, key_of(NEWER), ["A-109"]) == 200
              and hand_in(stand, key_of(SAME), LISTS[SAME].split()) == 200)
        link = re.findall(r'href="(/office/given-up/[^"]+)"', page.get("/office/")[2])[0]
        try_language(page, link)
        stopped_half_way(stand, page, between, link)
        try_named(page, "ere to leave the college, and take part now (P01); had withdrawn, and take part now (P02)", link)
        stand.script("rooms-office", "blank", next(label for label, *_ in stand.ask(ask="view")["lists"] if "choices" in label))
        shown = seen_at(page, "/office/")
        check("whose list was imported is not known after it was blanked, and then more people are named",
              "take part now (P01); had withdrawn, and take part now (P02, P06)" in shown, shown)
        send_as_it_is(page, link, but=SAME)
        check("the notes and withdrawals come back", away(stand) == ({"P01"}, {"P02"}), away(stand))
        check("the page has noted no fault of its own", "rooms-page:" not in stand.log("page"), stand.log("page"))


if __name__ == "__main__":
    if len(sys.argv) != 2 or not Path(sys.argv[1]).exists():
        sys.exit("usage: /usr/bin/python3 deploy/trial/office_halfway.py PROGRAM")
    try_office_halfway(sys.argv[1])

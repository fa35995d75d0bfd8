"""Lists that the office put on record: no page, letter or mail says that the resident handed one in; nor that something better was
gone, if the own room stood first: /usr/bin/python3 deploy/trial/office_on_record.py PROGRAM.
"""

import re
import sys
from pathlib import Path

# The repository stays as it is.
sys.dont_write_bytecode = True

# pylint: disable=wrong-import-position  # nothing may be written before
from mail_server import MailServer
from office_forms import boxes, seen_at
from office_mail import mail_of, settle_mail
from office_again import flat as lines
from office_requests import Page, hand_in
from stand import Stand, check, key_of

PEOPLE = [f"T0{number}" for number in range(1, 6)]
OWN_FIRST = {"T04": ["A-4", "A-5"], "T05": ["A-5"]}  # each with the own room first: T04 lists one below it, T05 nothing else


def is_silent(page, path, *says):
    """The page at this address speaks of lists on record, and of none that somebody handed in."""
    shown = seen_at(page, path)
    check(f"{path} says nothing of handing in", "handed in" not in shown and all(one in shown for one in says), shown)


def try_open(stand, page):
    """While the round is open."""
    stand.office("open")
    for person, rooms in OWN_FIRST.items():
        stand.office(f"choose {person} {' '.join(rooms)}")
    page.form("/office/person/T01/choose", {"text": "A-2"}, page="/office/person/T01")
    is_silent(page, "/office/", "Lists on record 3 of 5", "No list, or an empty one: 2")
    check("nor does its picture", 'aria-label="Lists on record: 3 of 5"' in page.get("/office/")[2])
    is_silent(page, "/office/person/T01", "It replaces the list that is on record.")
    is_silent(page, "/office/person/T01/going", "A list that is on record of this person counts no more.")
    is_silent(page, "/office/lists", "replaces the list that is on record of this person")
    is_silent(page, "/office/step/close", "2 of 5 participants have no list on record, or an empty one.")
    is_silent(page, "/office/mail/reminder", "everybody who takes part and has no list on record, or an empty one: 2")
    shown = lines(page.form("/office/lists", {"kind": "choices", "label": "paper"},
                            files={"list": b"person,choices\nT01,A-3\nT02,A-3\n"})[2])
    check("a list of choices replaces what is on record", "1 of these people has another list on record already." in shown
          and "replaces what is on record of: T01" in shown and "T01 handed in" not in shown, shown)
    try_empty(stand, page)


def try_empty(stand, page):
    """A resident has handed in an empty list, which the office's file does not tell from none: the page says so of a list of
    choices, and the clerk can leave this person out."""
    check("a resident hands in an empty list", hand_in(stand, key_of("T02"), []) == 200)
    for first, button in (("A-3", "only the people who have no other list on record"), ("A-2", "the list as paper-2")):
        body = f"person,choices\nT01,{first}\nT02,A-3\n".encode()
        shown = page.form("/office/lists", {"kind": "choices", "label": "paper-2"}, files={"list": body})[2]
        check("no page calls this person one without a list", "1 of these people has no list on record, or an empty one."
              in lines(shown) and "Nobody can tell an empty list that somebody handed in from none." in lines(shown)
              and f"Bring in {button}</button>" in shown and ("out", "T02") in boxes(shown), shown)
    held = re.findall(r'name="held" value="(\w+)"', shown)[-1]
    page.form("/office/lists/bring", {"held": held, "out": "T02"})
    shown = seen_at(page, "/office/lists")
    check("whom the clerk leaves out keeps the empty list, and the page names them", stand.recorded() == {
        **OWN_FIRST, "T01": ["A-2"]} and "You have left out T02" in shown and "with 1 line." in shown, (stand.recorded(), shown))
    page.form("/office/lists/bring", {"held": held, "out": "T02"})
    check("it is in, and reads so", "The list paper-2 is in." in seen_at(page, "/office/lists"))


def try_results(stand, page):
    """Once there are results."""
    for line in ("close", "draw", "run", "publish"):
        if line == "draw":
            stand.ask(ask="draw", who="anna", seed="7" * 64)
        else:
            stand.office(line)
    is_silent(page, "/office/person/T01", "choice 1")
    is_silent(page, "/office/results", "People without a room: 1", "Free rooms: 1")
    is_silent(page, "/office/person/T02", "No list of T02 was on record, or an empty one, so T02 gets no room.")
    is_silent(page, "/office/person/T03", "No list of T03 was on record, or an empty one, so T03 keeps A-1.")
    is_silent(page, "/office/letters", "You keep A-1, since no list of yours was on record, or an empty one.",
              "You get no room, since no list of yours was on record, or an empty one.")
    for person, (room, *_below) in OWN_FIRST.items():
        is_silent(page, f"/office/person/{person}", f"No room on the list stood above {room}, the own room, so {person} keeps it.")
        is_silent(page, "/office/letters", f"You keep {room}, since no room on your list stood above it, your own room.")
    for path in ("/office/person/T04", "/office/letters"):
        check(f"{path} does not say that something better was gone", "better" not in seen_at(page, path), seen_at(page, path))
    is_silent(page, "/office/print", "Participants with no list on record, or an empty one")
    is_silent(page, "/office/mail", "People with a mail address: 5 of 5.")
    page.form("/office/step/settle", page="/office/step/settle")
    is_silent(page, "/office/", "The round is settled, with 1 move.")


def try_office_on_record(program):
    """All of it."""
    with MailServer() as server, Stand(program) as stand:
        stand.fill([f"A-{number}" for number in range(1, 6)], PEOPLE)
        settle_mail(stand, server)
        stand.start()
        stand.start_page()
        stand.start_proxy()
        page = Page(stand)
        stand.ask(ask="mail-addresses", addresses={one: mail_of(one) for one in PEOPLE})
        stand.office("home T01 A-3")
        stand.office("home T03 A-1")
        for person, (room, *_below) in OWN_FIRST.items():
            stand.office(f"home {person} {room}")
        try_open(stand, page)
        try_results(stand, page)


if __name__ == "__main__":
    if len(sys.argv) != 2 or not Path(sys.argv[1]).exists():
        sys.exit("usage: /usr/bin/python3 deploy/trial/office_on_record.py PROGRAM")
    try_office_on_record(sys.argv[1])

"""Who left the college in a round, and a second round, in the office of the trial of the way back (office_wayback.py)."""

import contextlib
import re
import sqlite3

from office_forms import boxes, flat, seen_at
from office_requests import hand_in
from stand import check, key_of

ROOMS = [f"A-{number}" for number in range(101, 113)]
PEOPLE = [f"P{number:02}" for number in range(1, 13)]
HOMES = dict(zip(PEOPLE[:8], ROOMS))  # P01 to P08 live in; nobody lives in
SEED = "5eed" * 16
TO_WITHDRAW = "If nobody with a room is to swap, you can withdraw them once the round is open."


def fill(stand):
    """The people move in, by SQLite itself."""
    stand.fill(ROOMS, PEOPLE)
    with contextlib.closing(sqlite3.connect(stand.file)) as database:
        database.executemany("UPDATE person SET home = ? WHERE id = ?", [(room, person) for person, room in HOMES.items()])
        database.commit()


def away(stand):
    """Who leaves, and who has withdrawn."""
    view = stand.ask(ask="view")
    return {row[0] for row in view["going"]}, {row[0] for row in view["people"] if row[3]}


def finish_round(stand):
    """From closing to settling."""
    stand.office("close")
    stand.ask(ask="draw", who="anna", seed=SEED)
    for line in ("run", "publish"):
        stand.office(line)


def homes(stand):
    """Where everybody lives who has a room."""
    return {row[0]: row[2] for row in stand.ask(ask="view")["people"] if row[2]}


def people_of(stand):
    """The identifiers of the register."""
    return {row[0] for row in stand.ask(ask="view")["people"]}


def undo_of(page, person):
    """What the clerk reads who asks to undo something of a person."""
    return seen_at(page, page.get(f"/office/undo/{person}")[1]["location"])


def try_shut(stand, page):
    """The question before a room is taken out of use says what becomes of who lives there: somebody who takes part, leaves, or has
    withdrawn."""
    copy, loses = stand.ask(ask="backup")["name"], "loses the room at once"
    for line in ("going P07", "withdraw P08"):
        stand.office(line)
    for room, said in (("A-106", f"{loses}. In a round this person takes part like somebody without a room, and may end"),
                       ("A-107", f"{loses}, and not only at the end of the round. This person leaves the college, and takes no"),
                       ("A-108", f"{loses}. This person has withdrawn, so the round gives them no other one. Only after")):
        shown = seen_at(page, f"/office/rooms/{room}/shut")
        check(f"of {room} it says: {said}", said in shown, shown)
    stand.ask(ask="back", name=copy)


def try_undo_closed(stand, page):
    """A note is seen to be a mistake once the round is closed: the copy from before it is a way then, too."""
    before, lists = away(stand), stand.recorded()
    stand.office("going P06")
    stand.office("close")
    shown = page.get("/office/undo/P06")[2]
    copies = re.findall(r"/office/copies/([^/]+)/back", shown)
    check("once the round is closed the page still offers the copy from before the note", len(copies) == 1
          and "There are three ways." in flat(shown) and "what happened since then: the close of the round. R" in flat(shown),
          flat(shown))
    stand.ask(ask="draw", who="anna", seed=SEED)
    shown = seen_at(page, "/office/undo/P06")
    check("once the order is drawn it names that, too", "the close of the round; the order that was drawn. R" in shown, shown)
    stand.office("run")
    shown = seen_at(page, "/office/undo/P06")
    check("and then the results", "the close of the round; the order that was drawn; the results. R" in shown, shown)
    place = f"/office/copies/{copies[0]}/back"
    page.form(place, page=place)
    check("it leads back to the open round, without the note", stand.ask(ask="view")["phase"] == "open"
          and (away(stand), stand.recorded()) == (before, lists), (away(stand), stand.recorded()))
    check("then there is nothing to undo", "There is nothing to undo: this person takes part in the round." in undo_of(page, "P06"))


def try_left(stand, page):
    """P06 and P07 leave the college; P12 and P02 only get no room."""
    for line in ("going P06", "going P07"):
        stand.office(line)
    finish_round(stand)
    check("a published round cannot be given up", "It can no longer be undone" in undo_of(page, "P06"))
    stand.office("settle")
    # P04 gets A-111, P09 A-109 and P10 A-112, since nobody else lists these.
    expected = {**HOMES, "P04": "A-111", "P09": "A-109", "P10": "A-112"}
    expected = {one: room for one, room in expected.items() if one not in ("P02", "P06", "P07")}
    check("the round is settled", homes(stand) == expected, homes(stand))
    check("then a page of before does not say that who left takes part",
          "No round is under way. It can no longer be undone. Somebody who leaves the college has no" in undo_of(page, "P06"))
    check("nor that anybody else does", "No round is under way, so there is nothing to undo." in undo_of(page, "P04"))
    check("the overview names them", "Left the college in round 3: 2" in seen_at(page, "/office/"), seen_at(page, "/office/"))
    check("so does the question before the next round", "2 people who left the college in round 3"
          in seen_at(page, "/office/step/open"))
    shown = page.get("/office/left")[2]
    check("who left is ticked, and nobody else is there",
          boxes(shown) == {("person", "P06"): True, ("person", "P07"): True}, shown)
    check("and nothing is said to be deleted that kept lists have",
          "Kept lists and copies still hold names and keys." in flat(shown), shown)
    token = page.hidden("/office/left", "/office/many")
    shown = flat(page.post("/office/many", token)[2])
    check("if nobody is ticked the page says so", "You have named nobody." in shown and "Yes:" not in shown, shown)
    shown = page.post("/office/many", [*token.items(), ("person", "P06")])[2]
    check("the page asks first",
          "Remove them from the register: one person" in flat(shown) and "P06" in people_of(stand), shown)
    held = re.findall(r'name="held" value="(\w+)"', shown)[0]
    page.form("/office/many/do", {"held": held}, page="/office/many")
    check("and removes those who are ticked", set(PEOPLE) - people_of(stand) == {"P06", "P11"}, people_of(stand))
    stand.office("home P07 A-106")
    check("who has a room again is not offered", page.get("/office/left")[1].get("location") == "/office/")
    check("since nobody of those who left is there", "Nobody who left the college in the last round" in seen_at(page, "/office/"))
    copy = stand.ask(ask="backup")["name"]
    for line in ("open", "cancel"):
        stand.office(line)
    page.get("/office/left")
    shown = seen_at(page, "/office/")
    check("after a round that was given up the page says that it does not know who left", "the page does not know it any more"
          in shown and "Nobody who left" not in shown, shown)
    stand.ask(ask="back", name=copy)
    seen_at(page, "/office/")


def try_second_round(stand, page):
    """P02 and P12 have no room; A-102, A-104 and A-107 are free, and A-110 is out of use."""
    check("the overview leads to a second round", 'href="/office/second"' in page.get("/office/")[2])
    shown = seen_at(page, "/office/second")
    for text in ("2 people have no room, and 3 rooms are free", "Somebody with a room who hands in no list keeps it",
                 "Open the next round", TO_WITHDRAW):
        check(f"the page says: {text}", text in shown, shown)
    listed = page.get("/office/export/without-room.csv")[2]
    check("the list of the people without a room", listed == "person,name,home\nP02,Person P02,\nP12,Person P12,\n", listed)
    before = homes(stand)
    stand.office("open")
    check("one of them hands in", hand_in(stand, key_of("P12"), ["A-101", "A-104"]) == 200)
    shown = seen_at(page, "/office/second")
    check("the page counts them", "1 of 2 people without a room has a list on record" in shown, shown)
    check("the overview leads on", 'href="/office/second"' in page.get("/office/")[2])
    shown = page.form("/office/many", page="/office/second")[2]
    tenants = {"P01", "P03", "P04", "P05", "P07", "P08", "P09", "P10"}
    check("it offers to withdraw those who have a room and no list, and asks",
          "Withdraw them from the round: 8 people" in flat(shown)
          and set(re.findall("<td>(P[0-9]+)</td>", shown)) == tenants and away(stand) == (set(), set()), shown)
    check("while it does, nothing says to wait for the round to open", TO_WITHDRAW not in seen_at(page, "/office/second"))
    copy = stand.ask(ask="backup")["name"]
    for person in sorted(tenants):
        stand.office(f"withdraw {person}")
    shown = seen_at(page, "/office/second")
    check("once all of them are withdrawn, the page says that nobody is left to withdraw",
          "Everybody with a room has a list on record, or takes no part." in shown and "withdraw them" not in shown
          and "You need not withdraw" not in shown, shown)
    stand.ask(ask="back", name=copy)
    seen_at(page, "/office/")
    finish_round(stand)
    shown = seen_at(page, "/office/second")
    check("once the round is closed, nothing says that anybody can change their mind", "withdraw them" not in shown
          and "change their mind" not in shown, shown)
    stand.office("settle")
    check("a tenant without a list keeps the room, and P12 gets a free one", homes(stand) == {**before, "P12": "A-104"},
          homes(stand))
    check("P02, who got no room, has not left", page.get("/office/left")[1].get("location") == "/office/")

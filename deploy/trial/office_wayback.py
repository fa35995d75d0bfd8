"""The way back for those who withdraw or leave by mistake, those who left, and a second round: /usr/bin/python3
deploy/trial/office_wayback.py PROGRAM.

P01 is noted to leave by mistake. The round is given up, and all but this note comes back. Then the round goes on: who left
is removed, and who got no room gets one in a second round.
"""

import contextlib
import http.client
import re
import socket
import sqlite3
import sys
from pathlib import Path

# The repository stays as it is.
sys.dont_write_bytecode = True

# pylint: disable=wrong-import-position  # nothing may be written before
from office_forms import boxes, filled_in, flat, seen_at, send_as_it_is
from office_requests import Page, hand_in
from office_second import away, fill, try_left, try_second_round, try_shut, try_undo_closed, undo_of
from stand import HOST, Stand, check, key_of, unchecked

LABELS = 200  # as many lists as an office takes


def withdraw(stand, person):
    """A resident withdraws, through the proxy."""
    with contextlib.closing(http.client.HTTPSConnection("127.0.0.1", stand.port, context=unchecked(), timeout=90)) as door:
        door.sock = unchecked().wrap_socket(socket.create_connection(("127.0.0.1", stand.port)), server_hostname=HOST)
        door.request("POST", "/me/withdraw", headers={"Host": HOST, "Room-Key": key_of(person)})
        return door.getresponse().status


# --- asked twice

def try_asked_twice(stand, page):
    """A note and a withdrawal need a tick, on the person's page and for many."""
    for act, person, where in (("going", "P01", "who lives in A-101"), ("withdraw", "P10", "who has no room")):
        path, before = f"/office/person/{person}/{act}", away(stand)
        said = f"I have checked that this is the right person: Person {person}, identifier {person}, {where}"
        check(f"{act} shows who it is, with a box", said in seen_at(page, path), seen_at(page, path))
        check("which a browser demands", re.search(r'name="sure"[^>]* required', page.get(path)[2]))
        status, fields, _ = page.form(path, page=path)
        check(f"without the tick {act} changes nothing", status == 303 and fields["location"] == path and away(stand) == before)
        check("and the clerk reads so", "Nothing was changed. First tick the box" in seen_at(page, path))
        page.form(path, {"sure": "yes"}, page=path)
        check(f"with the tick {act} is done", any(person in one for one in away(stand)), away(stand))
    shown = page.form("/office/many", {"act": "going", "text": "P02"}, page="/office/many")[2]
    held = {"held": re.findall(r'name="held" value="(\w+)"', shown)[0]}
    led = page.form("/office/many/do", held, page="/office/many")[1]["location"]
    check("many people need a tick, too", "the right people" in flat(shown) and away(stand)[0] == {"P01"}, shown)
    shown = page.get(led)[2]
    check("without it the form still has them", "First tick the box" in flat(shown) and ">P02</textarea>" in shown
          and re.search('value="going"\\s+required checked', shown), shown)
    page.form("/office/many/do", {**held, "sure": "yes"}, page="/office/many")
    check("and the page still has them then", away(stand)[0] == {"P01", "P02"}, away(stand))


# --- the exports, and the question before a round is given up

def try_exports(stand, page):
    """Who has withdrawn, and who leaves, as CSV and on the question."""
    check("a resident withdraws", withdraw(stand, "P03") == 200)
    expected = {"withdrawn": "person,name,home\nP03,Person P03,A-103\nP10,Person P10,\n",
                "leavers": "person,name,home\nP01,Person P01,A-101\nP02,Person P02,A-102\n"}
    shown, asked = page.get("/office/print")[2], page.get("/office/step/cancel")[2]
    for name, text in expected.items():
        path = f"/office/export/{name}.csv"
        check(f"{name}.csv has them", page.get(path)[2] == text, page.get(path)[2])
        check("and is offered by both pages", f'href="{path}"' in shown and f'href="{path}"' in asked)
    for one in ("P01 Person P01, A-101", "P02 Person P02, A-102", "P03 Person P03, A-103", "P10 Person P10, no room"):
        check(f"the question names {one}", one in flat(asked), flat(asked))
    check("but nobody else", "P04" not in asked)
    check("and still offers the lists", "/office/export/choices.csv" in asked)


# --- the short way: a copy

def try_short_way(stand, page):
    """Nothing has happened since the note: going back to the copy before it is the shortest way."""
    stand.office("going P05")
    shown = page.get("/office/undo/P05")[2]
    copies = re.findall(r"/office/copies/([^/]+)/back", shown)
    check("the page offers the copy from just before", len(copies) == 1 and "This is the shortest way" in flat(shown), flat(shown))
    for line in ("grade P11 3", "room X-1"):
        stand.office(line)
    shown = seen_at(page, "/office/undo/P05")
    check("it names changes of rooms and grades, if there are any",
          "one person with another grade; a change of one room. R" in shown, shown)
    shown = seen_at(page, f"/office/copies/{copies[0]}/back")
    check("and so does the question about the copy", "again what it was 1 person P11" in shown and "they were 1 room X-1" in shown,
          shown)
    stand.office("choose P11 A-109 A-110")
    shown = seen_at(page, "/office/undo/P05")
    check("then somebody hands in a list, and the page says that it would be lost",
          "one person with another list; one person with another grade" in shown and "shortest" not in shown, shown)
    back = f"/office/copies/{copies[0]}/back"
    shown = seen_at(page, back)
    check("the question about the copy names who takes part again", "or note that they leave the college" in shown
          and shown.count("P05") == 1, shown)
    page.form(back, page=back)
    check("and it is as before", away(stand) == ({"P01", "P02"}, {"P03", "P10"}) and "P11" not in stand.recorded())
    try_bundle(stand, page)
    try_forward(stand, page)
    check("a resident's own withdrawal has no copy", "/back" not in page.get("/office/undo/P03")[2])


def try_bundle(stand, page):
    """Two people withdraw by one bundle of lines: the copy before it is a short way for each, and undoes both."""
    stand.ask(ask="do", lines=["grade P12 1", "withdraw P06", "withdraw P07"])
    shown = page.get("/office/undo/P06")[2]
    copies = re.findall(r"/office/copies/([^/]+)/back", shown)
    check("the page offers the copy from before the bundle, and says that the other withdrawal is undone as well",
          len(copies) == 1 and "one person with another part in the round; one person with another grade" in flat(shown), shown)
    page.form(f"/office/copies/{copies[0]}/back", page=f"/office/copies/{copies[0]}/back")
    check("then both take part again", away(stand) == ({"P01", "P02"}, {"P03", "P10"}), away(stand))


def try_forward(stand, page):
    """From a way back the clerk comes forth again: the newest lists count again, and nobody has to hand in theirs anew."""
    before, began = stand.ask(ask="backup")["name"], stand.recorded()
    for line in ("choose P11 A-109 A-110", "choose P12 A-112"):
        stand.office(line)
    page.form(f"/office/copies/{before}/back", page=f"/office/copies/{before}/back")
    stand.office("choose P12 A-111")
    forth = [name for name, _, why in stand.ask(ask="backups")["backups"] if f"before back {before}" in why][-1]
    seen_at(page, "/office/")
    page.form(f"/office/copies/{forth}/back", page=f"/office/copies/{forth}/back")
    shown = seen_at(page, "/office/")
    check("whose newest list counts again is not asked for it", "does not count now: P12. Tell" in shown, shown)
    page.form(f"/office/copies/{before}/back", page=f"/office/copies/{before}/back")
    check("and all is as it was", stand.recorded() == began, stand.recorded())
    seen_at(page, "/office/")


# --- the long way: the round is given up

def try_long_way(stand, page):
    """The round is given up, and all but the one note comes back."""
    path, number = "/office/undo/P01", stand.ask(ask="view")["number"]
    check("the person's page leads to it", f'href="{path}"' in page.get("/office/person/P01")[2])
    check("but not of somebody who takes part", "/office/undo/" not in page.get("/office/person/P04")[2])
    shown = seen_at(page, path)
    for text in ("Give round 1 up", "The number of this round does not come back", "Have withdrawn: 2", "Leave the college: 2"):
        check(f"the page says: {text}", text in shown, shown)
    page.form(path, {"step": "cancel"}, page=path)
    check("without a tick nothing is given up", stand.ask(ask="view")["phase"] == "open")
    page.form(path, {"step": "cancel", "sure": "yes"}, page=path)
    check("the round is given up", stand.ask(ask="view")["phase"] == "idle" and away(stand) == (set(), set()))
    check("then the next step is to open", "Step 2 of 3" in seen_at(page, path))
    check("whose question says that lists of a round that is given up come back", "can come back into the next round"
          in seen_at(page, "/office/step/open"), seen_at(page, "/office/step/open"))
    check("and the overview says that it can come back", "Round 1 was given up" in seen_at(page, "/office/"))
    page.form(path, {"step": "cancel", "sure": "yes"}, page=path)
    check("the first step does not come again", "This step does not come now" in seen_at(page, path))
    page.form(path, {"step": "open"}, page=path)
    check("the next round is open, without anything", stand.ask(ask="view")["number"] == number + 1
          and away(stand) == (set(), set()) and not stand.recorded())
    check("the next step is to bring back", "Step 3 of 3" in seen_at(page, path))
    left = "Were to leave the college, and take part now (P02); had withdrawn, and take part now (P03, P10); "\
           "lists that are not back (P04, P09, P11)"
    check("the overview names who is not back, but not who is undone", left in seen_at(page, "/office/"), seen_at(page, "/office/"))
    check("and so does the question before closing", f"w{left[1:]}" in seen_at(page, "/office/step/close"))
    bring_back(stand, page, path)


def bring_back(stand, page, path):
    """The form of what can come back, as a browser sends it."""
    link = re.findall(r'href="(/office/given-up/[^"]+)"', page.get(path)[2])[0]
    old = filled_in(page, link)
    check("P10, who had withdrawn, hands in a list now", hand_in(stand, key_of("P10"), ["A-112"]) == 200)
    check("and P11 another list", hand_in(stand, key_of("P11"), ["A-111"]) == 200)
    page.post(link.partition("?")[0], old)
    check("a form from before brings nothing back", ("withdrawn", "P10") in old and away(stand) == (set(), set()), old)
    check("and the page says why", "was changed after you looked" in seen_at(page, "/office/"))
    expected = {("going", "P01"): False, ("going", "P02"): True, ("withdrawn", "P03"): True, ("withdrawn", "P10"): False,
                **{("list", person): True for person in ("P01", "P04", "P09")}, ("sure", "yes"): False}
    shown = page.get(link)[2]
    check("all are ticked but P01 and who has handed in a list since", boxes(shown) == expected, boxes(shown))
    send_as_it_is(page, link, sure=False)
    check("without the last tick nothing comes in", away(stand) == (set(), set()))
    stale = [("seen", "round 1 open"), ("going", "P02"), ("sure", "yes"), ("token", page.hidden("/office/rooms")["token"])]
    page.post(link.partition("?")[0], stale)
    check("nor by a form of the round before", away(stand) == (set(), set()))
    send_as_it_is(page, link)
    shown = seen_at(page, path)
    check("the others are back", away(stand) == ({"P02"}, {"P03"}), away(stand))
    lists = {"P01": ["A-110"], "P04": ["A-111", "A-101"], "P09": ["A-109"], "P10": ["A-112"], "P11": ["A-111"]}
    check("with their lists, also that of P01, and newer lists stay", stand.recorded() == lists, stand.recorded())
    said = "Back in this round: lists: 3 of 3, who leaves the college: 1 of 1, withdrawals: 1 of 1"
    check("the page says what came in", said in shown and "It is undone" in shown, shown)
    check("the overview has nothing more to say", "which was given up" not in seen_at(page, "/office/"))
    check("there is nothing to undo any more", "There is nothing to undo" in undo_of(page, "P04"))


# --- what cannot come back, and what comes in between

def with_labels(stand, change):
    """Takes all labels of lists, or gives them back, by SQLite itself: the office then takes no list."""
    stand.stop_keeper()
    with contextlib.closing(sqlite3.connect(stand.file)) as database:
        (taken,) = database.execute("SELECT count(*) FROM list WHERE label NOT LIKE 'full-%'").fetchone()
        database.executemany(change, [(f"full-{number}",) for number in range(LABELS - taken)])
        database.commit()
    stand.start()


def try_changed(stand, page):
    """Between the rounds a person was removed, one has left a room, and a room was shut."""
    for line in ("withdraw P12", "cancel", "remove P11", "leave P02", "shut A-110", "open"):
        stand.office(line)
    link = re.findall(r'href="(/office/given-up/[^"]+)"', page.get("/office/")[2])[0]
    shown = seen_at(page, link)
    for text in ("P02: the note; the person has no room any more", "P11: the list; the person is not in the register",
                 "P01: of the list A-110, out of use", "What round 1 had, which was given up, too"):
        check(f"the page says: {text}", text in shown, shown)
    offered = {("withdrawn", "P03"): True, ("withdrawn", "P12"): True,
               **{("list", person): True for person in ("P04", "P09", "P10")}, ("sure", "yes"): False}
    check("and offers the rest", boxes(page.get(link)[2]) == offered, boxes(page.get(link)[2]))
    with_labels(stand, "INSERT INTO list VALUES (?, 'rooms', CAST('room' AS BLOB), 0)")
    onward = send_as_it_is(page, link, but="P12")
    shown = seen_at(page, onward)
    check("if the lists cannot come in, the page says why", "Then this came: A limit is reached" in shown, shown)
    check("and nothing is in", away(stand) == (set(), set()) and not stand.recorded(), stand.recorded())
    with_labels(stand, "DELETE FROM list WHERE label = ?")
    check("whom the clerk has taken out is still out", boxes(page.get(onward)[2])[("withdrawn", "P12")] is False)
    again = page.get(f"{onward[:-32]}{'0' * 32}")[2]
    check("nobody is ticked if the page has forgotten that", not boxes(again)[("withdrawn", "P12")]
          and "Tick again who is to come back" in again, again)
    onward = send_as_it_is(page, onward)
    lists = {"P04": ["A-111", "A-101"], "P09": ["A-109"], "P10": ["A-112"]}
    check("the rest comes in afterwards", stand.recorded() == lists and away(stand) == (set(), {"P03"}), stand.recorded())
    shown = seen_at(page, onward)
    check("and then all else is back", "All else is back" in shown and "P12 Person P12" in shown, shown)
    try_reopened(stand, page, link)
    copy = stand.data / "backups" / link.rpartition("/")[2] / "rooms.db"
    whole = copy.read_bytes()
    copy.write_bytes(whole[:8192] + b"\xff" * 4096 + whole[12288:])
    shown = seen_at(page, "/office/")
    check("a damaged copy hides no overview, which says so", "Nobody knows what is not back (the copy " in shown
          and "was not put back). If nothing of that is to come back, nothing has to be done." in shown
          and "Round 3: the round is open" in shown, shown)
    check("nor the question before closing", "Yes: close the round" in seen_at(page, "/office/step/close"))
    status, _, shown = page.get(link)
    check("and nothing of it is offered", status == 503 and "is damaged" in shown and "Bring this back" not in shown, shown)
    copy.write_bytes(whole)
    bad = page.get("/office/given-up/20270101T000000Z")
    check("another copy brings nothing back", bad[0] == 303 and bad[1]["location"] == "/office/")


def try_reopened(stand, page, link):
    """A room of lists was out of use when they came back, and is in use again: it can come back, and until then nothing says that
    all is back."""
    stand.office("shut A-111")
    old = {**stand.recorded(), "P04": ["A-101"]}
    stand.script("rooms-office", "import", "choices", "shorter-1", "-", given="person,choices\nP04,A-101\n")
    check("a room out of use is still named", "P04: of the list A-111, out of use" in seen_at(page, link), seen_at(page, link))
    stand.office("reopen A-111")
    shown = seen_at(page, link)
    check("a room that is in use again can come back", "The list of one person lacks rooms" in shown
          and not re.search("(else|come back) is back", shown) and boxes(page.get(link)[2])[("longer", "yes")], shown)
    left = "ists without rooms that are in use again (P04)"
    for path in ("/office/", "/office/step/close"):
        check(f"{path} names it", left in seen_at(page, path), seen_at(page, path))
    form = filled_in(page, link)
    check("the person hands in another list meanwhile", hand_in(stand, key_of("P04"), ["A-109"]) == 200)
    page.post(link, form)
    check("which stays", stand.recorded() == {**old, "P04": ["A-109"]} and "changed after you looked" in seen_at(page, link))
    check("and which lacks nothing", ("longer", "yes") not in boxes(page.get(link)[2]))
    stand.script("rooms-office", "import", "choices", "shorter-2", "-", given="person,choices\nP04,A-101\n")
    onward = send_as_it_is(page, link, but="P12")
    shown = seen_at(page, onward)
    check("the room comes back, at its place", stand.recorded() == {**old, "P04": ["A-111", "A-101"]}
          and "Back in this round: rooms of lists: 1 of 1" in shown and "All else is back" in shown, (stand.recorded(), shown))
    check("whoever takes out a room that was in use all the time lacks nothing", hand_in(stand, key_of("P04"), ["A-111"]) == 200
          and ("longer", "yes") not in boxes(page.get(link)[2]))
    stand.office("choose P04 A-111 A-101")


def try_list_beside(stand, page):
    """Somebody hands in a list, and then withdraws: both come back."""
    for line in ("open", "choose P12 A-103", "withdraw P12", "cancel", "open"):
        stand.office(line)
    link = re.findall(r'href="(/office/given-up/[^"]+)"', page.get("/office/")[2])[0]
    send_as_it_is(page, link)
    check("who had a list and has withdrawn, has both again", stand.recorded().get("P12") == ["A-103"]
          and away(stand) == (set(), {"P12"}), (stand.recorded(), away(stand)))
    stand.office("cancel")


def try_empty(stand, page):
    """Somebody hands in an empty list in the new round, which the office's file does not tell from none. The page says so, and the
    clerk leaves out whom they know of."""
    for line in ("open", "choose P04 A-103", "choose P09 A-109", "choose P10 A-111", "cancel", "open"):
        stand.office(line)
    check("a resident hands in an empty list", hand_in(stand, key_of("P04"), []) == 200)
    link = re.findall(r'href="(/office/given-up/[^"]+)"', page.get("/office/")[2])[0]
    shown = seen_at(page, link)
    check("the page says that nobody can tell it from none", "Nobody can tell an empty list from none" in shown
          and "who have none on record in this round, or an empty one" in shown, shown)
    undecided = [(name, value) for name, value in filled_in(page, link) if name != "lists"]
    page.post(link, undecided)
    check("no list comes back by itself", not stand.recorded() and ("list", "P04") in undecided, stand.recorded())
    with_labels(stand, "INSERT INTO list VALUES (?, 'rooms', CAST('room' AS BLOB), 0)")
    onward = send_as_it_is(page, link, but="P04")
    with_labels(stand, "DELETE FROM list WHERE label = ?")
    check("whose list is taken out stays out if something stops it", not stand.recorded()
          and boxes(page.get(onward)[2])[("list", "P04")] is False, page.get(onward)[2])
    shown = seen_at(page, send_as_it_is(page, onward))
    check("the empty list stays, and the others come back", stand.recorded() == {"P09": ["A-109"], "P10": ["A-111"]}
          and "lists: 2 of 2" in shown and "P04 Person P04: A-103" in shown, (stand.recorded(), shown))
    check("the overview still names it", "lists that are not back (P04)" in seen_at(page, "/office/").replace("Lists", "lists"))
    stand.office("cancel")


def try_given_up_twice(stand, page):
    """A round is given up, and the next one too, before anything came back."""
    for line in ("open", "choose P04 A-103", "withdraw P12", "cancel", "open", "cancel", "open"):
        stand.office(line)
    shown, asked = seen_at(page, "/office/"), seen_at(page, "/office/step/close")
    left = "ad withdrawn, and take part now (P12); lists that are not back (P04)"
    check("the overview names what the round before had", f"H{left}. If nothing of that is to come back, nothing" in shown, shown)
    check("and so does the question before closing", f"h{left}. The overview leads to it" in asked, asked)
    for line in ("cancel", "open", "choose P04 A-103", "choose P09 A-109", "cancel", "open", "choose P04 A-111", "cancel", "open"):
        stand.office(line)
    newer, older = re.findall(r'href="(/office/given-up/[^"]+)"', page.get("/office/")[2])[:2]
    shown, ticked = seen_at(page, older), boxes(page.get(older)[2])
    check("of whom the later round has something is named", "has something of these people, too: P04. They" in shown, shown)
    check("and not ticked", (ticked[("list", "P04")], ticked[("list", "P09")]) == (False, True), ticked)
    try_damaged_later(stand, page, newer, older)
    send_as_it_is(page, older)
    check("the later list is not replaced", stand.recorded() == {"P09": ["A-109"]}, stand.recorded())
    send_as_it_is(page, newer)
    check("and comes back", stand.recorded() == {"P04": ["A-111"], "P09": ["A-109"]}, stand.recorded())


def try_damaged_later(stand, page, newer, older):
    """The copy of the later round is damaged: it is named, and keeps nothing from coming back that is in another copy."""
    name = newer.rpartition("/")[2]
    copy = stand.data / "backups" / name / "rooms.db"
    whole = copy.read_bytes()
    copy.write_bytes(whole[:8192] + b"\xff" * 4096 + whole[12288:])
    status, _, shown = page.get(older)
    check("a damaged copy of a later round keeps no earlier one from coming back", status == 200
          and {("list", "P04"), ("list", "P09")} <= set(boxes(shown)) and "Bring this back" in shown, shown)
    check("and is named", f"nobody knows of whom it has something, too: the copy {name} is damaged" in flat(shown), flat(shown))
    status, _, shown = page.get(newer)
    check("what is in the damaged copy itself is refused by its name", status == 503 and f"the copy {name} is damaged" in
          flat(shown).replace("The copy", "the copy"), flat(shown))
    copy.write_bytes(whole)


def try_office_wayback(program):
    """All of it."""
    with Stand(program) as stand:
        fill(stand)
        stand.start()
        stand.start_page()
        stand.start_proxy()
        page = Page(stand)
        for line in ("open", "choose P01 A-110", "choose P04 A-111 A-101", "choose P09 A-109"):
            stand.office(line)
        try_asked_twice(stand, page)
        try_exports(stand, page)
        try_short_way(stand, page)
        stand.office("choose P11 A-109 A-110")
        try_long_way(stand, page)
        try_changed(stand, page)
        try_shut(stand, page)
        try_undo_closed(stand, page)
        try_left(stand, page)
        try_second_round(stand, page)
        try_list_beside(stand, page)
        try_empty(stand, page)
        try_given_up_twice(stand, page)
        check("the page has noted no fault of its own", "rooms-page:" not in stand.log("page"), stand.log("page"))


if __name__ == "__main__":
    if len(sys.argv) != 2 or not Path(sys.argv[1]).exists():
        sys.exit("usage: /usr/bin/python3 deploy/trial/office_wayback.py PROGRAM")
    try_office_wayback(sys.argv[1])

"""Identifiers that were somebody else's: /usr/bin/python3 deploy/trial/office_former.py PROGRAM.

Nobody comes into the register under one, by a line, a bundle of lines, a list, the page or the command, unless the clerk says that
it is the same person. So moves, kept lists, copies and the journal speak of one person under each identifier.
"""

import base64
import shutil
import sys
from pathlib import Path
from typing import Any

# The repository stays as it is.
sys.dont_write_bytecode = True

# pylint: disable=wrong-import-position  # nothing may be written before
from office_beside import people, publish
from office_forms import boxes, flat, seen_at
from office_requests import Page
from stand import Stand, check, key_of

ROOMS = [f"A-{number}" for number in range(101, 113)]
PEOPLE = [f"P{number:02}" for number in range(1, 21)]
HEADER = "person,name,key,home\n"
SAME, SAME_PEOPLE = "It is the same person", "They are the same people"


def new(person, name):
    """The line by which somebody comes."""
    return f"person {person} {key_of('new' + person)} {name}"


def row(person, name):
    """The row of a list by which somebody comes."""
    return f"{person},{name},{key_of('new' + person)},\n"


def send(stand, *lines, again=(), ask="do"):
    """Sends lines to the keeper."""
    return stand.ask(ask=ask, lines=list(lines), again=list(again), who="anna")


def send_list(stand, label, text, **more):
    """Sends a list of people to the keeper."""
    return stand.ask(ask="import", kind="people", label=label, body=base64.b64encode(text.encode()).decode(), **more)


def names(stand):
    """The names in the register."""
    return {person: name for person, name, *_ in stand.ask(ask="view")["people"]}


def remove(stand, *idents):
    """Removes people."""
    reply = send(stand, *(f"remove {ident}" for ident in idents))
    check(f"{' and '.join(idents)} left the register", reply.get("done"), reply)


def is_asked(what, reply, *former):
    """Whether the keeper asks about just these identifiers, with these names, before anything is changed."""
    check(f"{what}: the keeper asks first", reply.get("former") == [list(one) for one in former] and "answers" not in reply, reply)
    said = all(ident in reply["fault"] and name in reply["fault"] for ident, name in former)
    check("and says whose each identifier was", said and "speak of" in reply["fault"], reply)


def is_still_there(who, reply, said):
    """Whether the keeper does not say of somebody in the register that they are out of it."""
    check(f"the keeper says nothing false of the register: {who}", said in reply["fault"]
          and "who is out of the register" not in reply["fault"], reply)


# --- lines

def try_line(stand):
    """One person, by a line."""
    remove(stand, "P01")
    before = stand.ask(ask="backups")["backups"], stand.ask(ask="journal", last=500)["journal"]
    for ask in ("try", "do"):
        is_asked(f"somebody else by `{ask}`", send(stand, new("P01", "Ann Other"), ask=ask), ("P01", "Person P01"))
    is_asked("with another word", send(stand, new("P01", "Ann Other"), again=["P02"]), ("P01", "Person P01"))
    after = stand.ask(ask="backups")["backups"], stand.ask(ask="journal", last=500)["journal"]
    check("and neither register nor copies nor journal have changed", "P01" not in people(stand) and after == before, after)
    answer = stand.ask(ask="do", lines=[new("P01", "Ann Other")], again="P01").get("fault", "")
    check("a word that is no list is not understood", "not understood" in answer, answer)
    check("the same person needs no word", send(stand, new("P01", "Person P01")).get("done") and "P01" in people(stand))
    remove(stand, "P01")
    reply = send(stand, new("P01", "Ann Married"), again=["P01"])
    check("with the clerk's word the person comes under another name", reply.get("done") and names(stand)["P01"] == "Ann Married",
          reply)
    remove(stand, "P01")
    is_asked("once more", send(stand, new("P01", "Person P01")), ("P01", "Ann Married"))
    refused = send(stand, new("P01", "Ann Other"), "home P01 A-999")
    check("what the program refuses is no question", refused.get("answers", [["", 0]])[-1][1] == 1, refused)
    check("nor is an identifier that was nobody's", send(stand, new("F1", "Fay First")).get("done"))


def try_bundle(stand):
    """An identifier that goes and comes in one bundle."""
    reply = send(stand, "remove P02", new("P02", "Ben Other"))
    is_asked("`remove` and `person` in one bundle", reply, ("P02", "Person P02"))
    check("and the one before is still there", names(stand)["P02"] == "Person P02")
    is_still_there("who is removed by the same bundle", reply, "P02 is the identifier of Person P02, whom these lines remove.")
    check("with the same name it is done", send(stand, "remove P02", new("P02", "Person P02")).get("done"))
    check("and with the clerk's word", send(stand, "remove P02", new("P02", "Ben Other"), again=["P02"]).get("done")
          and names(stand)["P02"] == "Ben Other")
    remove(stand, "P03", "P04")
    reply = send(stand, new("F2", "Fred"), new("P04", "Dan Other"), new("P03", "Cy Other"), again=["F2"])
    is_asked("several in one bundle", reply, ("P03", "Person P03"), ("P04", "Person P04"))
    check("and none of them has come", not people(stand) & {"F2", "P03", "P04"})
    reply = send(stand, "remove P02", new("P02", "Bo Other"), new("P03", "Cy Other"), ask="try")
    is_asked("one who is removed by the bundle, and one who was before", reply, ("P02", "Ben Other"), ("P03", "Person P03"))
    is_still_there("of both", reply, "who are out of the register, or whom these lines remove: P02 (Ben Other), P03 (Person P03)")


def try_command(stand):
    """The clerk's command."""
    file = stand.folder / "people.csv"
    file.write_text(HEADER + row("P04", "Dan Other") + row("F3", "Flo"), encoding="ascii")
    line = new("P03", "Cy Other") + "\n"
    for words, given, ident in ((("do", "-"), line, "P03"), (("lines",), line, "P03"), (("try",), line, "P03"),
                                (("import", "people", "people-c", str(file)), "", "P04")):
        status, printed, beside = stand.command(*words, given=given)
        check(f"`rooms-office {words[0]}` says whose the identifier was", status == 1 and printed == "refused\n"
              and f"identifier of Person {ident}" in beside and f"--again {ident}" in beside, (status, printed, beside))
        check("and nobody has come", ident not in people(stand))
    for words, given, ident in ((("try",), line, ""), (("do", "-"), line, "P03"),
                                (("import", "people", "people-c", str(file)), "", "P04")):
        done = stand.command(words[0], "--again", "P03,P04", *words[1:], given=given)
        check(f"`rooms-office {words[0]} --again` is the word", done[0] == 0 and (not ident or ident in people(stand)), done)
    done = stand.command("view", "--again", "P03")
    check("other commands do not take it", done[0] == 2, done)
    done = stand.command("do", "--again", key_of("P03"), "open")
    check("and it is no way for a key onto the command line", done[0] == 2 and "a key on the command line" in done[2], done)


# --- lists

def try_list(stand):
    """A list of people."""
    remove(stand, "P05")
    text = HEADER + row("P05", "Eve Other") + row("F4", "Fae")
    cases: list[dict[str, Any]] = [{"only_try": True}, {}, {"again": ["F4"]}]
    for more in cases:
        is_asked(f"a list with {more or 'no word'}", send_list(stand, "people-l", text, **more), ("P05", "Person P05"))
    check("and nobody of it has come", not people(stand) & {"P05", "F4"})
    check("the same name needs no word", send_list(stand, "people-s", HEADER + row("P05", "Person P05")).get("done"))
    remove(stand, "P05")
    check("with the clerk's word the list comes in", send_list(stand, "people-l", text, again=["P05"]).get("done")
          and names(stand)["P05"] == "Eve Other")
    again = send_list(stand, "people-l", text)
    check("a list that is in already is no question", again.get("known") and again["answers"][-1][1] == 0, again)


def held_in(shown):
    """The name under which the page holds a list."""
    return shown.partition('name="held" value="')[2].partition('"')[0]


def try_page_list(stand, page):
    """Next year's list, by the page: some are in the register, one has a former identifier, and one is new."""
    remove(stand, "P06", "P07")
    text = HEADER + row("P08", "Person P08") + row("P06", "Fox Other") + row("F5", "Fern")
    shown = page.form("/office/lists", {"kind": "people", "label": "people-n"}, files={"list": text.encode()})[2]
    read = flat(shown)
    table = read.partition("Name before")[2].partition(SAME_PEOPLE)[0]
    check("the page shows both names of who has a former identifier", table.strip() == "P06 Fox Other Person P06", read)
    check("and the box is not ticked", boxes(shown).get(("again", "yes")) is False, boxes(shown))
    held = held_in(shown)
    shown = page.form("/office/lists/bring", {"held": held})[2]
    check("without it nobody comes, and the page asks again", not people(stand) & {"P06", "F5"} and SAME_PEOPLE in shown,
          flat(shown))
    page.form("/office/lists/bring", {"held": held_in(shown), "again": "yes"})
    check("with it the list comes in", names(stand).get("P06") == "Fox Other" and "F5" in people(stand), names(stand))
    try_page_keys(stand, page)


def try_page_keys(stand, page):
    """A list without keys: the page makes them, and asks beside the slips."""
    text = "person,name\nP07,Gil Other\nF6,Finn\n"
    job = {"kind": "people", "label": "people-k", "keys": "yes"}
    shown = page.form("/office/lists", job, files={"list": text.encode()})[2]
    check("beside new slips the page asks, too", "P07 Gil Other Person P07" in flat(shown) and "The page made 2 keys" in shown,
          flat(shown))
    page.form("/office/lists/bring", {"held": held_in(shown), "again": "yes"})
    check("and the list comes in", {"P07", "F6"} <= people(stand), names(stand))
    remove(stand, "P07")
    text = "person,name,key,home\nP07,Gil Other,short,\nP99,,,\n"
    shown = flat(page.form("/office/lists", {"kind": "people", "label": "people-f"}, files={"list": text.encode()})[2])
    check("a list with faults has its faults first", "2 lines have to be corrected" in shown, shown)
    shown = page.form("/office/lists", {"kind": "people", "label": "people-g"},
                      files={"list": (HEADER + row("P07", "Gil Other")).encode()})[2]
    check("and one with the names of then has no question", "fits" in shown and SAME_PEOPLE not in shown, flat(shown))


# --- the page

def try_page(stand, page):
    """A new person, by the page."""
    remove(stand, "P08", "P09")
    status, _, shown = page.form("/office/person", {"ident": "p08", "name": "Hal Other", "room": "A-101"}, page="/office/register")
    read = flat(shown)
    check("the page asks whether it is the same person", status == 200 and "P08 was the identifier of Person P08" in read
          and SAME in read and boxes(shown) == {("again", "P08"): False}, read)
    check("and nothing is lost of what was typed", all(f'value="{one}"' in shown for one in ("P08", "Hal Other", "A-101")), shown)
    for wrong, said in (({"room": "A-999"}, "No room has this code."), ({"ident": "X-6"}, "Write an identifier"),
                        ({"name": "x" * 61}, "The program does not understand this.")):
        typed = {"ident": "X6", "name": "Fay Sixth", "room": "A-112", **wrong}
        status, _, shown = page.form("/office/person", typed, page="/office/register")
        check(f"a refusal of {wrong} loses nothing of what was typed", status == 200 and said in flat(shown)
              and "X6" not in people(stand) and all(f'value="{one}"' in shown for one in typed.values()), shown)
    typed = {"ident": "P08", "name": "Hal Other", "room": "A-999", "again": "P08"}
    shown = page.form("/office/person", typed, page="/office/register")[2]
    check("and asks again about the same person", boxes(shown) == {("again", "P08"): False}, shown)
    form = {"ident": "P09", "name": "Hal Other", "room": "A-101", "again": "P08"}
    shown = flat(page.form("/office/person", form, page="/office/register")[2])
    check("the word counts for one identifier alone", "P09 was the identifier of Person P09" in shown
          and not people(stand) & {"P08", "P09"}, shown)
    fields = page.form("/office/person", {**form, "ident": "F7", "name": "Fritz", "room": ""}, page="/office/register")[1]
    check("another identifier is no question", "/office/slips/" in fields["location"] and "F7" in people(stand), fields)
    fields = page.form("/office/person", {**form, "ident": "P08"}, page="/office/register")[1]
    check("and with the word the person comes", "/office/slips/" in fields.get("location", "")
          and names(stand).get("P08") == "Hal Other", fields)


# --- who is forgotten, and who was on another branch

def try_forgotten(stand, page):
    """Nobody is named who was forgotten."""
    check("P10 is forgotten", stand.ask(ask="forget", person="P10", who="anna").get("done"))
    for name in ("Ida Other", "Person P10"):
        reply = send(stand, new("P10", name))
        is_asked(f"{name} under a forgotten one's identifier", reply, ("P10", ""))
        check("without the name of then", "Person P10" not in reply["fault"], reply)
    shown = flat(page.form("/office/person", {"ident": "P10", "name": "Ida Other"}, page="/office/register")[2])
    check("and so says the page", "P10 was the identifier of somebody who is out of the register" in shown
          and "Person P10" not in shown, shown)
    check("with the word somebody comes", send(stand, new("P10", "Ida Other"), again=["P10"]).get("done"))


def try_branch(stand):
    """Somebody who came after a copy is out of the register by a way back to it."""
    copy = stand.ask(ask="backup")["name"]
    check("B1 comes", send(stand, new("B1", "Nina Before")).get("done"))
    stand.ask(ask="back", name=copy)
    unread = stand.data / "backups" / copy
    (unread / "rooms.db").write_bytes(b"no office")  # nor is one that was damaged
    is_asked("somebody else on another branch", send(stand, new("B1", "Otto After")), ("B1", "Nina Before"))
    check("and the same person comes without a word", send(stand, new("B1", "Nina Before")).get("done"))


# --- a round that is settled

def try_left(stand, page):
    """Who left the college in a round is never taken for somebody else."""
    send(stand, "home P11 A-105", "open")
    stand.office("going P11")
    publish(stand)
    stand.office("settle")
    number = stand.ask(ask="view")["number"]
    check("one leaves", "P11 Person P11" in seen_at(page, "/office/left"))
    remove(stand, "P11")
    reply = send(stand, new("P11", "Ganz Neu"))
    is_asked("somebody new under the identifier of one who left", reply, ("P11", "Person P11"))
    shown = seen_at(page, "/office/left") + seen_at(page, f"/office/moves/{number}")
    check("so neither those who left nor the plan of moves name somebody new", "Ganz Neu" not in shown, shown)
    check("the same person comes again", send(stand, new("P11", "Person P11")).get("done"))
    check("and is not among those who left", not stand.ask(ask="view")["left"] and "P11" not in seen_at(page, "/office/left"))
    remove(stand, "P11")


# --- where a former identifier still stands

def try_sources(stand):
    """Without copies the office's moves, its lists and the journal still say that an identifier was somebody's."""
    check("a list comes in", send_list(stand, "people-t", HEADER + row("F8", "Fee") + row("F9", "Fips")).get("done"))
    remove(stand, "F8", "F9")
    shutil.rmtree(stand.data / "backups")
    is_asked("by a kept list", send(stand, new("F8", "Gus")), ("F8", "Fee"))
    stand.ask(ask="blank", label="people-t", who="anna")
    is_asked("by the journal", send(stand, new("F8", "Gus")), ("F8", ""))
    stand.stop_keeper()
    (stand.data / "journal").unlink()
    stand.start()
    is_asked("by the moves", send(stand, new("P11", "Ganz Neu")), ("P11", ""))
    check("and where nothing speaks of it there is no question", send(stand, new("F8", "Gus")).get("done"))
    (stand.data / "languages").write_text("no languages", encoding="ascii")
    answer = send(stand, new("F10", "Fia"))
    check("somebody does not come after all", "Nothing was changed" in answer.get("fault", ""), answer)
    (stand.data / "languages").unlink()
    check("and comes later without a question", send(stand, new("F10", "Fio")).get("done"))


def try_office_former(program):
    """All of it."""
    with Stand(program) as stand:
        stand.fill(ROOMS, PEOPLE)
        stand.start()
        stand.start_page()
        stand.start_proxy()
        page = Page(stand)
        try_line(stand)
        try_bundle(stand)
        try_command(stand)
        try_list(stand)
        try_page_list(stand, page)
        try_page(stand, page)
        try_forgotten(stand, page)
        try_branch(stand)
        try_left(stand, page)
        try_sources(stand)
        check("the page has noted no fault of its own", "rooms-page:" not in stand.log("page"), stand.log("page"))


if __name__ == "__main__":
    if len(sys.argv) != 2 or not Path(sys.argv[1]).exists():
        sys.exit("usage: /usr/bin/python3 deploy/trial/office_former.py PROGRAM")
    try_office_former(sys.argv[1])

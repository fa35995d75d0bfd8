"""Identifiers that are given to another person, and ways back: /usr/bin/python3 deploy/trial/office_identifiers.py PROGRAM.

After each way back to a copy, and after the way forth again, a key opens the record of its own person alone, the newer key of a
person counts, and mail, language, account, list and withdrawal of one person never become another one's.
"""

import re
import shutil
import sys
import time
from pathlib import Path

# The repository stays as it is.
sys.dont_write_bytecode = True

# pylint: disable=wrong-import-position  # nothing may be written before
from office_beside import give, has, people
from office_forms import boxes, seen_at, send_as_it_is
from office_requests import Page
from stand import Stand, check, key_of

ROOMS = [f"A-{number}" for number in range(101, 109)]
PEOPLE = [f"P{number:02}" for number in range(1, 41)]
NOTHING, ALL = (False, False, False), (True, True, True)


def copied(stand):
    """A copy in a second of its own: of what is done in the same second the keeper takes it that it may have come later."""
    time.sleep(1.1)
    return stand.ask(ask="backup")["name"]


def replace(stand, *idents):
    """Removes people, and gives their identifiers to others, of whom the clerk claims that they are the same people. Gives the key
    of the first one."""
    lines = [line for ident in idents for line in (f"remove {ident}", f"person {ident} {key_of('new' + ident)} New {ident}")]
    check(f"{idents[0]} is another person now", stand.ask(ask="do", lines=lines, again=idents)["done"])
    return key_of(f"new{idents[0]}")


def back(stand, copy, newer=False):
    """Goes back to a copy."""
    answer = stand.ask(ask="back", name=copy, newer_keys=newer)
    check(f"the office goes back{' with the newer keys' if newer else ''}", "name" in answer, answer)
    return answer


def opens(stand, key):
    """Whose record a key opens: the first line of what its owner sees; nothing if it opens none."""
    text, status = stand.ask(ask="try", lines=[f"me {key}"])["answers"][0]
    return text.partition("\n")[0] if status == 0 else ""


def name_of(stand, person):
    """The name of a person in the register."""
    return {row[0]: row[1] for row in stand.ask(ask="view")["people"]}[person]


# --- keys

def try_undone(stand, page):
    """The identifier goes to somebody else, the office goes back, and forth again."""
    first = copied(stand)
    new, old = replace(stand, "P01"), key_of("P01")
    forth = back(stand, first, newer=True)["name"]
    check("the person of the copy has their own key", opens(stand, old) and not opens(stand, new))
    found = stand.ask(ask="compare", name=forth)
    check("of the way forth the keeper says that the identifier may be another person's", found["others"] == ["P01"], found)
    shown = seen_at(page, f"/office/copies/{forth}/back")
    check("and so does the page, which offers no newer key to keep", "Keep the newer keys" not in shown
          and "Identifiers that may be another person's in the copy than now" in shown, shown)
    answer = back(stand, forth, newer=True)
    check("on the way forth each key opens the record of its own person", name_of(stand, "P01") == "New P01"
          and opens(stand, new) and not opens(stand, old), (opens(stand, new), opens(stand, old)))
    check("and the keeper says that the key of the copy works again", (answer["keys"], answer["newer_then"]) == (["P01"], []),
          answer)


def try_newer(stand, page):
    """A way back without the tick is undone: the newer key is that of the copy, unless there is a still newer one."""
    first, old, new, newest = copied(stand), key_of("P02"), key_of("secondkey"), key_of("thirdkey")
    stand.ask(ask="correct", person="P02", key=new)
    stand.ask(ask="correct", person="P03", key=key_of("p3new"))
    forth = back(stand, first)["name"]
    check("without the tick the old keys work again", opens(stand, old) and not opens(stand, new))
    stand.ask(ask="correct", person="P03", key=newest)
    found = stand.ask(ask="compare", name=forth)
    check("the keeper knows which keys are newer", (found["newer_then"], found["newer_now"], found["others"])
          == (["P02"], ["P03"], []), found)
    shown = seen_at(page, f"/office/copies/{forth}/back")
    check("and the page says so", "Keep the newer keys" in shown
          and "people whose key of the copy is the newer one: it works again in any case 1 person P02" in shown, shown)
    page.form(f"/office/copies/{forth}/back", {"newer": "yes"}, page=f"/office/copies/{forth}/back")
    check("with the tick the newest key of each works", opens(stand, new) and not opens(stand, old) and opens(stand, newest)
          and not opens(stand, key_of("P03")) and not opens(stand, key_of("p3new")))
    shown = seen_at(page, "/office/")
    check("and no key is called an old one", "key of the copy again" not in shown, shown)


def try_base_gone(stand):
    """The copy of the state in which both part is gone: nobody knows which key is the newer one, so those of the copy work."""
    first = copied(stand)
    new = replace(stand, "P10")
    stand.ask(ask="correct", person="P09", key=key_of("p9new"))
    forth = back(stand, first, newer=True)["name"]
    shutil.rmtree(stand.data / "backups" / first)
    found = stand.ask(ask="compare", name=forth)
    check("without the copy in which both part, the lines say who may be another person",
          (found["others"], found["newer_now"], found["newer_then"]) == (["P10"], [], []), found)
    stand.ask(ask="correct", person="P09", key=key_of("p9other"))
    answer = back(stand, forth, newer=True)
    check("and the keys of the copy work", opens(stand, new) and opens(stand, key_of("p9new"))
          and not opens(stand, key_of("p9other")) and answer["keys"] == ["P09", "P10"], answer)
    stand.ask(ask="correct", person="P09", key=key_of("P09"))


def try_many(stand):
    """More people are removed at once than a line of the journal has: the keeper knows of the last one, too."""
    first, idents = copied(stand), PEOPLE[10:40]
    stand.ask(ask="do", lines=[line for ident in idents for line in (f"grade {ident} 2", f"remove {ident}")])
    stand.ask(ask="do", lines=[f"person {idents[-1]} {key_of('new' + idents[-1])} Last One"], again=[idents[-1]])
    found = stand.ask(ask="compare", name=first)["others"]
    check("of many who are removed at once each may be another person", found == [idents[-1]], found)
    entries = stand.ask(ask="about", person=idents[-1])["journal"]
    check("and all about that person has the entry", [one["line"].split()[0] for one in entries] == ["grade", "person"],
          entries)
    back(stand, first, newer=True)
    check("so the key of the copy works", opens(stand, key_of(idents[-1])) and not opens(stand, key_of(f"new{idents[-1]}")))


# --- what the keeper has beside the register

def try_beside(stand, page):
    """Mail address, language and account are of one person, and never of who has the identifier on another branch."""
    give(stand, "P04")
    first = copied(stand)
    replace(stand, "P04", "P05")
    give(stand, "P04")
    found = stand.ask(ask="compare", name=first)
    check("the keeper says whose address goes", (found["others"], found["gone"]) == (["P04", "P05"], ["P04"]), found)
    shown = seen_at(page, f"/office/copies/{first}/back")
    check("and so does the page", "this is erased, and does not come back 1 person P04" in shown, shown)
    (stand.data / "languages").rename(stand.data / "kept")
    (stand.data / "languages").write_text("no languages", encoding="ascii")
    answer = stand.ask(ask="back", name=first).get("fault", "")
    check("if it cannot be erased, the office does not go back, and the clerk reads why", name_of(stand, "P04") == "New P04"
          and "Before that the office does not go back" in answer, answer)
    (stand.data / "kept").rename(stand.data / "languages")
    give(stand, "P04")
    forth = back(stand, first)["name"]
    check("then it goes back, and the person of the copy has nothing of the other one", name_of(stand, "P04") == "Person P04"
          and has(stand, "P04") == NOTHING, has(stand, "P04"))
    give(stand, "P04")
    back(stand, forth)
    check("nor has the other one after the way forth", name_of(stand, "P04") == "New P04" and has(stand, "P04") == NOTHING)


def try_same_key(stand):
    """Somebody who was removed comes again with the key of before: that is the same person."""
    first = copied(stand)
    lines = ["remove P38", f"person P38 {key_of('P38')} Person P38"]
    check("somebody is removed and added again", stand.ask(ask="do", lines=lines)["done"])
    give(stand, "P38")
    found = stand.ask(ask="compare", name=first)
    check("who has the same key is the same person", (found["others"], found["gone"]) == ([], []), found)
    back(stand, first)
    check("so all that is there stays", has(stand, "P38") == ALL, has(stand, "P38"))


def try_two_came(stand):
    """On each of two branches somebody comes under the same identifier, and nobody is removed."""
    first = copied(stand)
    stand.ask(ask="do", lines=[f"person Q1 {key_of('Q1a')} Anna Old"])
    give(stand, "Q1")
    forth = back(stand, first)["name"]
    check("who leaves the register by a way back keeps everything", has(stand, "Q1") == ALL, has(stand, "Q1"))
    again = back(stand, forth)["name"]
    check("and has it after the way forth", name_of(stand, "Q1") == "Anna Old" and has(stand, "Q1") == ALL, has(stand, "Q1"))
    back(stand, again)
    stand.ask(ask="do", lines=[f"person Q1 {key_of('Q1b')} Bert New"], again=["Q1"])
    give(stand, "Q1")
    found = stand.ask(ask="compare", name=forth)
    check("who came on one branch is another person than who came on the other", found["others"] == ["Q1"], found)
    back(stand, forth, newer=True)
    check("and each has their own key, and nothing of the other", has(stand, "Q1") == NOTHING and opens(stand, key_of("Q1a"))
          and not opens(stand, key_of("Q1b")), has(stand, "Q1"))


def try_come(stand):
    """Somebody left the register by a way back, and the office goes on to an older copy, with another person."""
    oldest = copied(stand)
    stand.ask(ask="do", lines=["remove P06"])
    older = copied(stand)
    stand.ask(ask="do", lines=[f"person P06 {key_of('newP06')} New P06"], again=["P06"])
    give(stand, "P06")
    back(stand, older)
    check("who is out of the register keeps everything", "P06" not in people(stand) and has(stand, "P06") == ALL)
    found = stand.ask(ask="compare", name=oldest)
    check("the keeper says that what is there is of another person", (found["others"], found["gone"]) == ([], ["P06"]), found)
    back(stand, oldest)
    check("who comes back into the register has nothing of it", name_of(stand, "P06") == "Person P06"
          and has(stand, "P06") == NOTHING, has(stand, "P06"))


def try_damaged(stand):
    """The office is damaged, so nobody knows who is in its register: who was removed since the copy may be another person."""
    give(stand, "P03")
    first = copied(stand)
    replace(stand, "P06")
    give(stand, "P06")
    stand.stop_keeper()
    with open(stand.file, "r+b") as file:
        file.seek(4096)
        file.write(bytes(8192))
    stand.start_keeper()
    answer = stand.ask(ask="back", name=first, newer_keys=True)
    check("a damaged office goes back, too", "name" in answer, answer)
    stand.until_listening(stand.server_port)
    check("and the person of the copy has nothing of the other one", name_of(stand, "P06") == "Person P06"
          and has(stand, "P06") == NOTHING, has(stand, "P06"))
    # The list of accounts came in anew, with the one of P06 alone.
    check("but the others have everything", has(stand, "P03") == (True, True, False), has(stand, "P03"))


# --- a round that was given up

def try_given_up(stand, page):
    """Between the rounds identifiers go to other people, who get neither list nor withdrawal."""
    for line in ("home P07 A-101", "open", "choose P07 A-102", "choose P08 A-103", "choose P09 A-104", "choose P10 A-105",
                 "withdraw P08", "going P07", "cancel", "leave P07"):
        stand.office(line)
    replace(stand, "P07", "P08", "P09")
    stand.office("home P07 A-101")
    stand.office("open")
    link = re.findall(r'href="(/office/given-up/[^"]+)"', page.get("/office/")[2])[0]
    shown = seen_at(page, link)
    check("the page names who may be another person", all(f"{one}: the identifier may be another person's by now" in shown
                                                          for one in ("P07", "P08", "P09")), shown)
    offered = boxes(page.get(link)[2])
    check("and offers only what is of the same people", offered == {("list", "P10"): True, ("sure", "yes"): False}, offered)
    shown = seen_at(page, "/office/")
    check("nor does the overview ask for it", "Lists that are not back (P10)" in shown, shown)
    check("and there is nothing to undo", page.get("/office/undo/P08")[0] == 303)
    send_as_it_is(page, link)
    view = stand.ask(ask="view")
    check("nobody else gets list, withdrawal or leaving", stand.recorded() == {"P10": ["A-105"]} and not view["going"]
          and not [row for row in view["people"] if row[3]], (stand.recorded(), view["going"]))
    stand.office("cancel")


def try_reopened(stand, page):
    """A room that was brought back into use on another branch was not in this one."""
    for line in ("open", "choose P20 A-106 A-107", "shut A-107", "cancel", "open"):
        stand.office(line)
    link = re.findall(r'href="(/office/given-up/[^"]+)"', page.get("/office/")[2])[0]
    given = link.rpartition("/")[2]
    before = copied(stand)
    stand.office("reopen A-107")
    check("a room that is in use again is known", stand.ask(ask="given-up", name=given)["reopened"] == ["A-107"])
    back(stand, before)
    reopened = stand.ask(ask="given-up", name=given)["reopened"]
    check("but not once the office is back at the copy of before", not reopened, reopened)


def try_office_identifiers(program):
    """All of it."""
    with Stand(program) as stand:
        stand.fill(ROOMS, PEOPLE)
        stand.start()
        stand.start_page()
        stand.start_proxy()
        page = Page(stand)
        try_undone(stand, page)
        try_newer(stand, page)
        try_base_gone(stand)
        try_many(stand)
        try_beside(stand, page)
        try_same_key(stand)
        try_two_came(stand)
        try_come(stand)
        try_damaged(stand)
        try_given_up(stand, page)
        try_reopened(stand, page)
        check("the page has noted no fault of its own", "rooms-page:" not in stand.log("page"), stand.log("page"))


if __name__ == "__main__":
    if len(sys.argv) != 2 or not Path(sys.argv[1]).exists():
        sys.exit("usage: /usr/bin/python3 deploy/trial/office_identifiers.py PROGRAM")
    try_office_identifiers(sys.argv[1])

"""Names and keys are lines of the program, also those that the clerk's command and the page have in other words: what they show,
which copies come before them, and what stands if the office is changed, or the program or the keeper dies, in the middle of them.

This run alone: /usr/bin/python3 deploy/trial/new_keys.py PROGRAM
"""

import contextlib
import datetime
import re
import shutil
import sqlite3
import sys
import threading
from pathlib import Path
from unittest import mock

from beside import copies_of
from between import Between
from bundles import noted
from kills import content, servers_of
from office_forms import flat
from office_keys import asked, slips_in, works, yes
from office_requests import Page
from stand import Stand, check, key_of, until
from watcher import Watcher

# pylint: disable=wrong-import-order  # they are in the folder that the import of `beside` has added
from change import Change
from correcting import Corrections
from program import Answer
from settings import Fault

PEOPLE = [f"T{number:03}" for number in range(1, 61)]
NAME, KEY = "Papadimitrakopoulos Maria", "fedcba9876543210fedcba98"


def keys_of(stand):
    """The key of each person, as the file says it."""
    with copies_of(stand).copied() as copy, contextlib.closing(sqlite3.connect(copy)) as database:
        return dict(database.execute("SELECT id, passkey FROM person"))


def try_lines(stand):
    """A line `name` or `key` that a clerk sends does what the command of this name does."""
    for words in ("key", "T001", "x"), ("name", "T001", KEY), ("name", KEY, "Ann"):
        told = stand.command("do", *words)
        check("a line with a key is not taken from the command line", told[0] == 2 and "do -" in told[2], told)
    with Watcher(KEY) as watcher:
        told = stand.command("do", "-", given=f"key T001 {KEY}\n")
        copy = re.search("rooms-office back (\\S+)", told[2])
        check("a key is given by a line, after a copy of the office", told[:2] == (0, "ok\n") and copy, told)
        check("it works, and the old one does not", works(stand, KEY) and not works(stand, key_of("T001")))
        check("the journal has no key", noted(stand, 1) == [("key T001 (key)", "ok", 0)], noted(stand, 1))
        told = stand.command("do", "name", "T001", *NAME.split())
        check("a name by another line", told[:2] == (0, "ok\n") and "rooms-office back" in told[2], told)
        check("of which the journal has none", noted(stand, 1) == [("name T001 (name)", "ok", 0)], noted(stand, 1))
        told = stand.command("lines", given=f"key T002 {KEY}2\nname T002 Ann Li\nname NOBODY Ann\n")
        check("several are tried on a copy first", told[:2] == (1, "ok\nok\nrefused 2 UnknownPerson\n") and "nothing of all this" in
              told[2] and works(stand, key_of("T002")), told)
        told = stand.command("lines", given=f"key T002 {KEY}2\nname T002 Ann Li\n")
        check("and then carried out", told[:2] == (0, "ok\nok\n") and works(stand, f"{KEY}2"), told)
        for line in (f"name T002 {KEY}", f"key {KEY} T002", f"key T002 {KEY}2 Ann", "key T002", "name T002"):
            told = stand.command("do", "-", given=f"{line}\n")
            check("a line with a slip is not understood", told[:2] == (2, "not understood\n"), told)
    check("no process had a key", watcher.looks > 5 and not watcher.seen, watcher.seen)
    reasons = [why for _name, _size, why in stand.ask(ask="backups")["backups"]]
    check("nor has the reason of a copy a key or a name", reasons[-3:] == ["before key T001 (key), by root", "before name T001 "
          "(name), by root", "before key (1), name (1), by root"], reasons)
    stand.ask(ask="back", name=copy[1] if copy else "")
    check("the copy from before brings the old key back", works(stand, key_of("T001")))


def copies_of_kind(stand):
    """The kept copies that were taken before new names and keys."""
    return sorted(one.parent.name for one in stand.data.glob("backups/*/why") if '"kind": "correct"' in one.read_text("utf-8"))


def fill_copies(stand):
    """Puts older copies there, until there are as many of this kind as are kept, and gives their names."""
    had = copies_of_kind(stand)
    for number in range(20 - len(had)):
        made = datetime.datetime.now(datetime.timezone.utc) - datetime.timedelta(days=30, seconds=number)
        shutil.copytree(stand.data / "backups" / had[0], stand.data / "backups" / f"{made:%Y%m%dT%H%M%SZ}")
    return copies_of_kind(stand)


def try_between(stand, between, page):
    """Somebody is removed by hand while many people get new keys: those before have slips, and the page names the line."""
    before, copies = keys_of(stand), len(stand.ask(ask="backups")["backups"])
    shown, held = asked(page, {"text": "T011 T012 T013 T014"})
    between.before_next(between.by_hand("remove T013"))
    sheet = page.get(yes(page, shown, held)[1]["location"])[2]
    shown, keys, after = flat(sheet), slips_in(sheet), keys_of(stand)
    check("those before have the keys of their slips", list(keys) == ["T011", "T012"] and
          all(after[one] == keys[one] for one in keys), (keys, shown[:3000]))
    check("nobody else has another key", {one for one in after if before[one] != after[one]} == set(keys))
    check("the page says how many there are, and at which line it ended", "for the first 2 of 4 people" in shown and
          "At the line key T013 (key) it ended: No person has this identifier." in shown, shown[:3000])
    onward = re.search('href="(/office/many/[0-9a-f]+)"', sheet)
    again = page.get(onward[1])[2] if onward else ""
    check("the form behind the slips has the others", ">T013\nT014</textarea>" in again, again[:3000])
    check("the journal has those who got one, and the other", noted(stand, 2) == [
        ("new keys (2): T011 T012", "ok", 0), ("new keys (1): T013", "refused 2 UnknownPerson", 1)], noted(stand, 2))
    check("and there is one copy of before", len(stand.ask(ask="backups")["backups"]) == copies + 1)
    between.before_next(between.by_hand("remove T015"))
    page.form("/office/person/T015/key", page="/office/person/T015/key")
    shown = flat(page.get("/office/register")[2])
    check("if nobody got one, nothing was changed", "No person has this identifier. Look the person up on the page People. "
          "Nothing was changed." in shown, shown[:3000])
    full = fill_copies(stand)
    between.before_next(between.by_hand("remove T016"))
    answer = stand.ask(ask="keys", keys={"T016": KEY})
    check("a copy before nothing pushes no older one out", copies_of_kind(stand) == full, (full, copies_of_kind(stand)))
    check("and the keeper says so", answer == {"fault": "No person has this identifier. Look the person up on the page People. "
                                               "Nothing was changed.", "refused": ["refused 2 UnknownPerson\n", 1]}, answer)
    between.before_next(between.by_hand("name T017 By Hand"))
    check("a name that comes by hand meanwhile stays", stand.ask(ask="keys", keys={"T017": KEY})["corrected"] == 1 and
          ["T017", "By Hand"] in [row[:2] for row in stand.ask(ask="view")["people"]] and keys_of(stand)["T017"] == KEY)


def try_many(between, page):
    """The page says how many people were removed, and which line was refused."""
    shown = page.form("/office/many", {"act": "remove", "text": "T021 T022 T023"}, page="/office/many")[2]
    held = re.search(r'name="held" value="(\w+)"', shown)
    between.before_next(between.by_hand("remove T022"))
    page.post("/office/many/do", {**page.hidden("/office/many", "/office/many"), "held": held[1] if held else ""})
    shown = flat(page.get("/office/register")[2])
    check("of many who are removed the page says how many were, and which line was refused", "for the first 1 of 3 people" in shown
          and "The line remove T022 is refused: No person has this identifier." in shown, shown[:3000])


def try_ended(stand, between, page):
    """The program dies at one of many keys: who has a new one has a slip."""
    before = keys_of(stand)
    shown, held = asked(page, {"text": "T031 T032 T033 T034"})
    between.before_next("kill -9 $REAL", after=2)
    sheet = page.get(yes(page, shown, held)[1]["location"])[2]
    shown, keys, after = flat(sheet), slips_in(sheet), keys_of(stand)
    check("if the program dies, those before have slips", list(keys) == ["T031", "T032"] and
          all(after[one] == keys[one] for one in keys), (keys, shown[:3000]))
    check("and the page says so", "for the first 2 of 4 people" in shown and "2 of 4 lines were carried out before" in shown,
          shown[:3000])
    check("nobody else has another key, but for the one at which it died", {one for one in after if before[one] != after[one]} <=
          {*keys, "T033"}, after)
    stand.until_listening(stand.server_port)


def try_killed(stand, between):
    """The keeper is killed in the middle of new keys for everybody: what was answered stands, and nothing by half."""
    before = keys_of(stand)
    keys = {person: f"{number:016}new" for number, person in enumerate(before)}
    between.before_next("sleep 60", after=20)
    clerk = threading.Thread(target=unanswered, args=(stand, keys))
    clerk.start()
    until(lambda: sum(before[one] != key for one, key in keys_of(stand).items()) == 20, 120, "twenty new keys")
    stand.kill_keeper()
    clerk.join()
    until(lambda: not servers_of(stand), 30, "the end of what the keeper had started")
    stand.start()
    after = keys_of(stand)
    first = list(keys)[:20]
    check("the keys that were answered stand, whole, and no other", after == {**before, **{one: keys[one] for one in first}},
          {one: key for one, key in after.items() if before[one] != key})
    line, answer, status = noted(stand, 1)[0]
    check("the journal says that nobody knows how far they came", "not known" in answer and status == 3 and
          line == f"new keys ({len(keys)}): {' '.join(keys)}", (line, answer))
    with Watcher(*keys.values()) as watcher:
        made = stand.ask(ask="keys", keys=keys)["corrected"]
        check("and the same keys once more are all made", made == len(keys) and keys_of(stand) == keys, made)
    check("of which no process had one", watcher.looks and not watcher.seen, watcher.seen)
    return keys


def unanswered(stand, keys):
    """Asks a keeper that does not live to answer."""
    with contextlib.suppress(ValueError):
        answer = stand.ask(ask="keys", keys=keys)
        check("the keeper is killed before it answers", False, answer)


WRONG = (("name", " Ann"), ("name", "Ann "), ("name", "Ann\r"), ("name", ""), ("name", "Ann\nroom X"), ("key", f"{KEY} "),
         ("key", "Short"))


def try_way_back(stand):
    """By a way back with the newer keys nobody gets a key that another person has in the copy."""
    copy = stand.ask(ask="backup")["name"]
    for person, key in ("T052", f"{KEY}52"), ("T051", key_of("T052")):
        check(f"{person} has another key", stand.ask(ask="correct", person=person, key=key).get("corrected"))
    before = content(stand)
    answer = stand.ask(ask="back", name=copy, newer_keys=True)
    check("a newer key that is another person's in the copy is refused", content(stand) == before and
          "the newer key of T051 is in the copy that of T052, so T051 cannot keep it." in answer["fault"], answer)
    check("without the newer keys the office goes back", "name" in stand.ask(ask="back", name=copy) and
          keys_of(stand)["T051"] == key_of("T051"))


def fault_of(answers, reached, **values):
    """The fault of a correction whose lines are so answered by a copy, or by the office if that is reached."""
    worker = mock.Mock()
    worker.change.side_effect = lambda change: Change(
        "anna", "", change.carry_out, answers=answers, reached=reached, made=sum(answer.status == 0 for answer in answers))
    try:
        Corrections(mock.Mock(), worker, mock.Mock()).correct({"who": "anna", "person": "T041", **values})
    except Fault as fault:
        return str(fault), fault.unknown
    return "", False


def try_unavailable():
    """The disk or the memory fails: whether something may have taken effect all the same depends on whose it was."""
    failed, done = Answer("unavailable\n", 3), Answer("ok\n", 0)
    said = fault_of([failed], False, name="Ann Li")
    check("of a copy nothing takes effect", said == ("the file, the disk or the memory failed (unavailable). Nothing was changed.",
                                                     False), said)
    said = fault_of([failed], True, name="Ann Li")
    check("of the office it may have", "Look whether this took effect." in said[0] and said[1], said)
    said = fault_of([done, failed], True, name="Ann Li", key=KEY)
    check("of name and key the text says one thing", "the new key works" in said[0] and "look whether the name" in said[0] and
          "as it was" not in said[0] and said[1], said)
    said = fault_of([done, Answer("refused 2 UnknownPerson\n", 1)], True, name="Ann Li", key=KEY)
    check("and so it does if the name is refused", "The new key works, and the name is as it was." in said[0] and not said[1], said)


def try_correct(stand, between):
    """What the keeper refuses of a name and a key of one person, and what stands if the office is changed between the two."""
    for values, said in (({"person": "T041 Ann", "name": "Li"}, "No person has this identifier."),
                         ({"person": "T041", "name": "Ann  Li"}, "does not take this name or key (not understood). A name"),
                         *(({"person": "T041", **{part: value}}, "does not take this name or key") for part, value in WRONG)):
        answer = stand.ask(ask="correct", **values)
        check(f"the keeper refuses {values}", said in answer.get("fault", ""), answer)
    between.before_next(between.by_hand("remove T041"), after=1)
    answer = stand.ask(ask="correct", person="T042", name="Ann Li", key=f"{KEY}42")
    check("a line by hand that finds the file in use changes nothing", answer.get("corrected") == "T042" and
          "T041" in keys_of(stand), answer)
    check("a person gets both", works(stand, f"{KEY}42") and ["T042", "Ann Li"] in
          [row[:2] for row in stand.ask(ask="view")["people"]])
    check("in one entry of the journal", noted(stand, 1) == [("correct T042: name and key", "ok", 0)], noted(stand, 1))
    between.before_next("kill -9 $REAL", after=1)
    answer = stand.ask(ask="correct", person="T043", name="Ann Li", key=f"{KEY}43")
    check("if the program dies between the two, the keeper says that the first one stands", "1 of 2 lines were carried out before."
          in answer["fault"] and works(stand, f"{KEY}43"), answer)


def try_new_keys(program):
    """All of it."""
    try_unavailable()
    with Stand(program) as stand:
        stand.fill(["A-1", "A-2"], PEOPLE)
        between = Between(stand)
        stand.start()
        stand.start_page()
        stand.start_proxy()
        page = Page(stand)
        try_lines(stand)
        try_between(stand, between, page)
        try_many(between, page)
        try_ended(stand, between, page)
        try_correct(stand, between)
        try_way_back(stand)
        keys = try_killed(stand, between)
        said = "".join([stand.proxy_log(), stand.log("page"), stand.log("keeper"), (stand.data / "journal").read_text("utf-8")])
        check("no key and no name is in a log or in the journal", not [key for key in [*keys.values(), KEY] if key in said] and
              "Papadimitrakopoulos" not in said)


if __name__ == "__main__":
    if len(sys.argv) != 2 or not Path(sys.argv[1]).exists():
        sys.exit("usage: /usr/bin/python3 deploy/trial/new_keys.py PROGRAM")
    try_new_keys(sys.argv[1])

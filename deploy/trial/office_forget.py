"""What the office keeps of a person, for how long, and how it forgets: /usr/bin/python3 deploy/trial/office_forget.py PROGRAM.

Copies by age, all about one person on a page, and a person who is forgotten.
"""

import base64
import contextlib
import datetime
import re
import shutil
import sqlite3
import sys
from pathlib import Path

# The repository stays as it is.
sys.dont_write_bytecode = True

# pylint: disable=wrong-import-position  # nothing may be written before
from office_forms import flat, seen_at
from office_requests import Page
from office_sheets import bring_in
from stand import Stand, check, key_of

NAME = "Zoe Zander"
KEY = "fedcba98765432100123456789abcdef"
HEADER = ["person", "name", "key", "home"]
STILL = "Kept lists and copies still hold names and keys. Blank the lists on the page Lists in."


def copies(stand):
    """The names of the kept copies, the oldest first."""
    return [row[0] for row in stand.ask(ask="backups")["backups"]]


def age(stand, name, days):
    """Makes a copy older by so many days, and gives its new name."""
    made = datetime.datetime.strptime(name[:16], "%Y%m%dT%H%M%SZ") - datetime.timedelta(days=days)
    folder = stand.data / "backups"
    new = f"{made:%Y%m%dT%H%M%SZ}{name[16:]}"
    (folder / name).rename(folder / new)
    return new


def try_days(stand, page):
    """Copies go by their age, as the office has set it."""
    first, second = (stand.ask(ask="backup")["name"] for _ in range(2))
    old, older = age(stand, first, 399), age(stand, second, 401)
    shown = page.get("/office/copies")[2]
    until = (datetime.date.today() + datetime.timedelta(days=1)).isoformat()
    said = (f"Stays until {until}, or until 30 more are made", 'name="days" value="400"')
    check("the page says until when each copy stays", all(one in shown for one in said), shown)
    stand.ask(ask="backup")
    check("a copy of 401 days goes with the next one, and one of 399 stays", old in copies(stand) and older not in copies(stand))
    _, fields, _ = page.form("/office/copies/days", {"days": "398"}, page="/office/copies")
    shown = page.get(fields["location"])[2]
    check("another number of days is asked about, with what goes", "One copy is older, and is deleted at once" in shown, shown)
    check("and nothing has gone before the answer", old in copies(stand))
    page.form("/office/copies/days/398", page="/office/copies/days/398")
    shown = page.get("/office/copies")[2]
    told = "Copies stay for 398 days at most. 1 copy was deleted" in shown
    check("then the copy goes", told and old not in copies(stand), shown)
    for days in ("0", "3651", "-1", "x"):
        fields = page.form("/office/copies/days", {"days": days}, page="/office/copies")[1]
        shown = page.get(fields["location"])[2] + page.get("/office/copies")[2]
        check(f"{days} days are refused", "Yes: keep them" not in shown and "Nothing was changed" in shown, shown)
    check("and the number stays", stand.ask(ask="backups")["days"] == 398)


def try_restart(stand, page):
    """The number of days outlives the keeper, and an old copy is put back before it goes."""
    stand.ask(ask="backup")  # the last two of the nights are not that old: otherwise the clock would be doubtful
    name = age(stand, stand.ask(ask="backup")["name"], 500)
    page.form("/office/rooms", {"change": "room", "code": "A-9"}, page="/office/rooms")
    check("a copy that is too old can be put back", stand.command("back", name)[0] == 0, copies(stand))
    check("and the office is as it was then", "A-9" not in {row[0] for row in stand.ask(ask="view")["rooms"]})
    stand.stop_keeper()
    stand.start()
    check("after a restart the number of days is the same", stand.ask(ask="backups")["days"] == 398)
    check("and what is too old has gone", name not in copies(stand), copies(stand))


def year_of(stand, page):
    """Zoe Zander comes by a list, hands in a list, moves, and has a home."""
    for code in ("A-1", "A-2", "A-3"):
        stand.office(f"room {code}")
    bring_in(page, "people", "people-1", HEADER, [["Z1", NAME, KEY, "A-1"], ["T1", "Tim Tan", key_of("T1"), "A-2"],
                                                  ["Z11", "Zoe Other", key_of("Z11"), ""]])
    stand.office("open")
    bring_in(page, "choices", "choices-1", ["person", "choices"], [["Z1", "A-3"]])
    stand.office("choose Z1 A-3 A-2")
    stand.office("close")
    stand.ask(ask="draw", who="anna", seed="0" * 64)


def try_about(stand, page):
    """All about one person."""
    shown = page.get("/office/about/Z1")[2]
    said = (NAME, "A-1", "A-3 A-2", "by the word", "people-1 (people): Z1 | Zoe Zander | (key) | A-1",
            "choices-1 (choices): Z1 | A-3", "choose Z1 (2 rooms)", "have this person", "there is one; no page shows it")
    missing = [one for one in said if one not in shown]
    check("one page has register, list, order, kept lists, copies and journal", not missing, (missing, shown))
    check("and neither the key nor somebody else", KEY not in shown and "Tim Tan" not in shown and "Zoe Other" not in shown, shown)
    for line in ("run", "publish"):
        stand.office(line)
    shown = page.get("/office/about/Z1")[2]
    check("then the result, and how it came about", "A-3, your choice 1, was the best room on your list" in shown, shown)
    status, fields, _ = page.get("/office/forget/Z1")
    check("in a round nobody is forgotten", status == 303 and fields["location"] == "/office/about/Z1")
    check("and the page says why", "only between two rounds" in page.get("/office/about/Z1")[2])
    stand.office("settle")
    check("after the round the move", "Round 1: from A-1 to A-3" in page.get("/office/about/Z1")[2])
    for line in ("the council on 2026-12-01 02:30", "a slip for 12 on 2027-01-01T09:00:00+02:00"):
        stand.ask(ask="note", line=line)
    noted = {one: [entry["note"][:6] for entry in stand.ask(ask="about", person=one)["journal"]] for one in ("12", "01", "02")}
    check("a part of a time in the journal is nobody's identifier", noted == {"12": ["a slip"], "01": [], "02": []}, noted)
    stand.ask(ask="note", line=f"seed {'0' * 64} 3 1 2 2")
    counted = {one: stand.ask(ask="about", person=one)["journal"] for one in ("1", "2", "3")}
    check("nor is what the journal counts, the number of a round, or a throw", not any(counted.values()), counted)
    stand.office("room 12")
    stand.ask(ask="do", lines=[f"person 12 {key_of('12')} Tom Twelve", "home 12 12"])
    found = [entry.get("line", entry.get("note"))[:9] for entry in stand.ask(ask="about", person="12")["journal"]]
    check("nor a room, but what names the person is", found == ["a slip fo", "person 12"], found)
    stand.ask(ask="do", lines=["leave 12", "remove 12"])
    shown = page.form("/office/about", {"about": "z1"}, page="/office/register")[2]
    check("an identifier is found by a form", "All about Zoe Zander (Z1)" in shown, shown)
    fields = page.form("/office/about", {"about": "Zoe Zander"}, page="/office/register")[1]
    check("and what is none goes into no address", fields.get("location") == "/office/register")


def holds(stand, text):
    """Whether the office's own files have a text; not its copies."""
    return any(text.encode() in one.read_bytes() for one in stand.data.glob("rooms.db*"))


def try_forget(stand, page):
    """The person is forgotten."""
    before = {row[0]: row[1:] for row in stand.ask(ask="view")["people"]}
    check("this trial finds the person where they are", holds(stand, NAME) and holds(stand, KEY))
    shown = page.get("/office/forget/Z1")[2]
    said = ("name, key, room and grade", "A-3 becomes free", "choices-1, people-1", "until it is too old",
            "the identifier, and no name")
    check("the question says what goes at once, and what stays", all(one in shown for one in said), shown)
    made = len(copies(stand))
    fields = page.form("/office/forget/Z1", page="/office/forget/Z1")[1]
    after = {row[0]: row[1:] for row in stand.ask(ask="view")["people"]}
    check("the person is out of the register, and nobody else", after == {one: before[one] for one in before if one != "Z1"}, after)
    check("neither name nor key is left in the office's file", not holds(stand, NAME) and not holds(stand, KEY))
    check("there is one copy more", len(copies(stand)) == made + 1)
    shown = page.get(fields["location"])[2]
    last = (datetime.date.today() + datetime.timedelta(days=398)).isoformat()
    said = ("Z1 is forgotten", "Nobody in the register", f"The last one goes on {last}", "Round 1: from A-1 to A-3", "forget Z1")
    check("the page says what is left, and until when", all(one in " ".join(shown.split()) for one in said), shown)
    check("and that no list is left", "None that names this person" in shown and "Forget this person" not in shown, shown)
    journal = (stand.data / "journal").read_text(encoding="utf-8")
    check("the journal has no name", NAME not in journal and KEY not in journal)
    check("the keeper finds each copy that has the person", left_in_copies(stand) > 0)
    name = copies(stand)[-1]
    why = stand.data / "backups" / name / "why"
    said = why.read_text(encoding="utf-8")
    check("and is sure of its own", not stand.ask(ask="about", person="X9")["unsure"])
    shown = seen_at(page, "/office/forget/Z1")
    check("of a person of whom nothing is left the question names older copies, and no new one", "older copies have the person, "
          "until they are too old" in shown and "makes a copy" not in shown, shown)
    try_unsure(stand, page, f"The last one goes on {last}")
    why.unlink()
    found = [stand.ask(ask="about", person=one) for one in ("Z1", "X9")]
    check("one that somebody has put there by hand may have others, too", [one[0] for one in found[1]["unsure"]] == [name]
          and not found[0]["unsure"] and not found[1]["copies"], found)
    shown = seen_at(page, "/office/about/X9")
    check("and the page says so", "1 copy may have this person" in shown, shown)
    why.write_text(said, encoding="utf-8")


def try_unsure(stand, page, last):
    """A copy of an earlier version is whole, and may have people in free pages. It goes later than those that have the person."""
    name = age(stand, stand.ask(ask="backup")["name"], -30)
    folder = stand.data / "backups" / name
    (folder / "why").write_text('{"kind": "backup", "why": "", "whole": true}\n', encoding="utf-8")
    found = [[one[0] for one in stand.ask(ask="about", person=one)["unsure"]] for one in ("Z1", "X9")]
    check("a copy of an earlier version may have people whom it has not in its register", found == [[name], [name]], found)
    shown, asked = seen_at(page, "/office/about/Z1"), seen_at(page, "/office/forget/X9")
    check("and the page says so", "1 copy may have this person" in shown and "version up to 3.1.0" in shown, shown)
    check("which changes nothing of when the last one goes that has the person", last in shown, (last, shown))
    check("the question before somebody is forgotten says so, too", "1 copy may have this person" in asked and "older" not in asked,
          asked)
    shutil.rmtree(folder)


def left_in_copies(stand):
    """How many kept copies have the person, by SQLite itself."""
    found = 0
    for name in copies(stand):
        with sqlite3.connect(f"file:{stand.data / 'backups' / name / 'rooms.db'}?mode=ro&immutable=1", uri=True) as database:
            found += database.execute("SELECT count(*) FROM person WHERE id = 'Z1'").fetchone()[0]
    shown = stand.ask(ask="about", person="Z1")["copies"]
    return found if len(shown) >= found else 0


def try_removed(stand, page):
    """Somebody was removed, and their list is still there."""
    bring_in(page, "people", "people-2", HEADER, [["T2", "Tea Tal", key_of("T2"), ""]])
    for shown in (seen_at(page, "/office/person/T2/remove"),
                  flat(page.form("/office/many", {"act": "remove", "text": "T2"}, page="/office/many")[2])):
        check("before somebody is removed the page says that kept lists have them", STILL in shown, shown)
        check("and of somebody without a room that no room becomes free", "free" not in shown, shown)
    shown = flat(page.form("/office/many", {"act": "remove", "text": "T2 T1"}, page="/office/many")[2])
    check("but of somebody with one that it does", "Their rooms become free." in shown, shown)
    stand.office("remove T2")
    shown = page.get("/office/about/T2")[2]
    check("a kept list still names who was removed", "people-2 (people): T2 | Tea Tal" in shown, shown)
    page.form("/office/forget/T2", page="/office/forget/T2")
    check("until they are forgotten", not holds(stand, "Tea Tal"))
    told = stand.command("about", "Z11")
    check("the clerk's command says it, too", told[0] == 0 and "name Zoe Other" in told[1], told)
    told = stand.command("forget", "Z11")
    check("and forgets", told[0] == 0 and not holds(stand, "Zoe Other"), told)
    told = [stand.script("rooms-office", *words) for words in (("days", "200"), ("days",))]
    check("and sets the days", told == ["200\n", "200\n"], told)
    bad = [stand.ask(ask="forget", person=one).get("fault", "") for one in ("z1", "", "A B", "1" * 13)]
    check("what is no identifier is refused", all("not understood" in one for one in bad), bad)


NAMED = "Nora O'Neill"
TEXTS = ("the description of A-1", "the text of a picture of A-2", "the notice (Deutsch)", "the contact",
         "the text of mails: results (English)", "the messages that were sent last, until others are sent: plan of moves")


def write_texts(stand):
    """Texts of clerks that have a name, as one writes it in a hurry, and others that have none."""
    stand.ask(ask="tell-rooms", who="anna", rooms={"A-1": {"text": "NORA  O'Neill mag dieses"}, "A-2": {"text": "Balkon"}})
    body = base64.b64encode(b"\xff\xd8\xff no picture").decode()
    stand.ask(ask="add-picture", who="anna", room="A-2", body=body, shows="The balcony of Nora O\u2019Neill")
    stand.ask(ask="tell-words", who="anna", notice={"de": "Nora\nO'Neills Post liegt hier", "en": "Nora: call"},
              contact="Nora O'Neill, room 1")
    stand.ask(ask="mail-addresses", addresses={"N1": "nora@college.example"})
    with contextlib.closing(sqlite3.connect(stand.data / "mail.db", isolation_level=None)) as database:
        database.executemany("INSERT INTO words VALUES (?, 'en', 'Rooms', ?)", [("results", NAMED), ("moves", "Dear {name}")])
        database.execute("INSERT INTO run VALUES (1, 'moves', 1, 1, 'Rooms', ?, '', 'anna', 'ended', '', '')", (f"Not {NAMED}",))
    stand.ask(ask="note", who="anna", line=f"seed {'0' * 64} rolled by {NAMED}")


def try_texts(stand, page):
    """Texts that clerks have written may have the name. The question and the page name them, and the backups of this machine."""
    bring_in(page, "people", "people-4", HEADER, [["N1", NAMED, key_of("N1"), ""]])
    write_texts(stand)
    machine = ("/var/backups/rooms, may have this person, too, with what no copy has. One stays until there are 7 newer ones, and "
               "for 200 days at most")
    shown = seen_at(page, "/office/forget/N1")
    check("the question names the texts that have the name", ", ".join(TEXTS) in shown, shown)
    check("and the backups of this machine, with how long they stay", machine in shown, shown)
    fields = page.form("/office/forget/N1", page="/office/forget/N1")[1]
    shown = seen_at(page, fields["location"])
    missing = [one for one in (*TEXTS, machine, f"rolled by {NAMED}") if one not in shown]
    check("afterwards the page says that they are left, and which entry of the journal", "N1 is forgotten" in shown and not missing,
          (missing, shown))
    others = ("description of A-2", "notice (English)", "mails: plan of moves")
    check("and of no other text", not any(one in shown for one in others), shown)
    told = stand.command("about", "N1")[1]
    said = ("name in description A-1", "name in picture A-2", "name in notice de", "name in contact", "name in mail results en",
            "name in sent moves", "backups /var/backups/rooms: at most 7, for at most 200 days")
    check("so does the clerk's command", all(f"{one}\n" in told for one in said), told)
    told = stand.command("forget", "Z9")
    check("which says after `forget` where to read it", "what is left, and until when: rooms-office about Z9" in told[2], told)
    page.form("/office/language", {"language": "de"}, page="/office/")
    shown = seen_at(page, "/office/about/N1")
    check("in German, too", "die Beschreibung von A-1" in shown and "der Hinweis (Deutsch)" in shown
          and "/var/backups/rooms" in shown and "bis es 7 neuere gibt" in shown, shown)
    page.form("/office/language", {"language": "en"}, page="/office/")
    try_no_texts(stand, page)


def try_no_texts(stand, page):
    """Once the texts are changed, the page finds none; and it does not say so where it cannot look."""
    stand.ask(ask="tell-rooms", rooms={})
    stand.ask(ask="tell-words", notice={}, contact="")
    (stand.folder / "told" / "told.json.gz").unlink()
    (stand.data / "mail.db").unlink()
    shown, none = seen_at(page, "/office/about/N1"), "No text has a name that the office has had under this identifier."
    check("once they are changed the page says that there is none", none in shown, shown)
    (stand.folder / "told" / "told.json.gz").write_bytes(b"none")
    shown = seen_at(page, "/office/about/N1")
    check("of a damaged file it says that it could not look there", "what residents read of rooms is damaged" in shown
          and none not in shown, shown)
    (stand.folder / "told" / "told.json.gz").unlink()
    shutil.rmtree(stand.data / "backups")
    shown = seen_at(page, "/office/about/N1")
    check("and where no copy has the name any more that it could not look", "so this page could not look for it" in shown
          and none not in shown, shown)


def try_stale(stand, page):
    """Somebody has changed the person since the question."""
    bring_in(page, "people", "people-3", HEADER, [["T3", "Tom Tao", key_of("T3"), ""]])
    old = page.hidden("/office/forget/T3", "/office/forget/T3")
    page.form("/office/person/T3/name", {"name": "Tom Other"}, page="/office/person/T3")
    page.post("/office/forget/T3", old)
    check("nobody is forgotten who has changed since", "T3" in {row[0] for row in stand.ask(ask="view")["people"]})
    check("and the clerk reads so", "was changed after you looked" in page.get("/office/about/T3")[2])


def try_office_forget(program):
    """All of it."""
    with Stand(program) as stand:
        stand.start()
        stand.start_page()
        stand.start_proxy()
        page = Page(stand)
        try_days(stand, page)
        try_restart(stand, page)
        year_of(stand, page)
        try_about(stand, page)
        try_forget(stand, page)
        try_removed(stand, page)
        try_stale(stand, page)
        try_texts(stand, page)
        logs = stand.proxy_log() + stand.log("page") + stand.log("keeper")
        check("no name is in a log", not re.search("zander|zoe|neill", logs, re.I))


if __name__ == "__main__":
    if len(sys.argv) != 2 or not Path(sys.argv[1]).exists():
        sys.exit("usage: /usr/bin/python3 deploy/trial/office_forget.py PROGRAM")
    try_office_forget(sys.argv[1])

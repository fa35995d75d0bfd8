"""Times and reasons on the office's page, and wishes in the journal: /usr/bin/python3 deploy/trial/office_words.py PROGRAM.

The machine is in India, whose clocks are five and a half hours before UTC all year. All times are in its zone, and name it.
A copy says in words why it was made. What somebody wishes for is in no reason and no journal, not even in those of an earlier
version. A refusal has the words of the page.
"""

import datetime
import json
import os
import re
import signal
import sys
from pathlib import Path

# The repository stays as it is.
sys.dont_write_bytecode = True

# pylint: disable=wrong-import-position  # nothing may be written before
from office_again import flat
from office_forms import flat as plain
from office_forms import seen_at
from office_requests import Page
from stand import Stand, check, key_of, until

ROOMS = [f"A-{number}" for number in range(101, 121)]
PEOPLE = [f"T{number:02}" for number in range(1, 13)]
AHEAD = datetime.timedelta(hours=5, minutes=30)
WISHES = ["A-111", "A-112", "A-113"]
SEED = "ab" * 32
BARE = re.compile(r"\b\d\d:\d\d:\d\d\b(?! IST)")
OLD_LINES = "going T01; going T02; going T03; going T04; going T05; going "
SECRET = f"choose T09 {' '.join(WISHES)}"
CUT_OFF = "(an entry that was cut off)"
NOT_KNOWN = "not known: the keeper ended before it had noted the answer. Look whether the line took effect."

def local(copy):
    """When a copy was made, by its name, in India, and the number of those of one second."""
    made = datetime.datetime.strptime(copy[:16], "%Y%m%dT%H%M%SZ") + AHEAD
    return f"{made:%Y-%m-%d %H:%M:%S} IST{f' ({int(copy[17:])})' if copy[17:] else ''}"


def year_of(stand, page):
    """A round with each kind of step that a copy comes before."""
    for number, room in enumerate(ROOMS[:6]):
        stand.office(f"home {PEOPLE[number]} {room}")
    stand.office("leave T06")
    stand.office("shut A-120")
    stand.command("import", "rooms", "rooms-1", "-", given="room\nB-1\n")
    stand.script("rooms-office", "key", "T07")
    stand.script("rooms-office", "name", "T07", "Tea", "Seven")
    stand.office("open")
    for rooms in ([ROOMS[12]], WISHES):
        stand.office(f"choose T09 {' '.join(rooms)}")
    stand.office("withdraw T10")
    stand.script("rooms-office", "lines", given="".join(f"going T0{number}\n" for number in range(1, 5)))
    stand.script("rooms-office", "lines", given=f"choose T11 A-105\nchoose T12 {' '.join(WISHES)}\ngrade T12 2\n")
    stand.office("close")
    page.form("/office/seed", {"way": "seed", "text": SEED}, page="/office/draw")
    page.form("/office/draw", {"seed": SEED}, page="/office/draw")
    stand.office("run")


REASONS = [
    "Before: T06 left a room, by root", "Before: room A-120 taken out of use, by root",
    "Before: list rooms-1 of rooms brought in, by root",
    "Before: new key for T07, by root", "Before: name of T07 corrected, by root", "Before: list of T09 put on record, by root",
    "Before: T10 withdrawn, by root", "Before: people noted as leaving the college (4), by root",
    "Before: lists put on record (2), grades set (1), by root", "Before: round closed, by root", "Before: order drawn, by anna",
    "Before: rooms given, by root", "Asked for by anna",
]


def try_reasons(stand, page):
    """Each copy says in words why it was made."""
    page.form("/office/copies", page="/office/copies")
    shown = page.get("/office/copies")[2]
    named = re.search(r"The copy of [-0-9]{10} [0-9:]{8} IST(?: \([0-9]+\))? is made", shown)
    check("the page names the copy by its time", named, shown)
    for text in REASONS:
        check(f"a reason reads: {text}", f'<td class="long">{text}<br>' in flat(shown).replace("<br> ", "<br>"), shown)
    for name, _, _ in stand.ask(ask="backups")["backups"]:
        check(f"the copy {name} has its time in India", local(name) in shown)
    copy = stand.ask(ask="backups")["backups"][0][0]
    held = stand.data / "backups" / copy / "why"
    kept = held.read_bytes()
    for old, new in ((OLD_LINES, "Before: people noted as leaving the college, by anna"),
                     (f"draw $(rooms words --seed {SEED}"[:60], "Before: order drawn, by anna"),
                     (SECRET, "Before: list of T09 put on record, by anna")):
        held.write_text(json.dumps({"kind": "lines", "why": f"before {old}, by anna"}) + "\n", encoding="utf-8")
        shown = page.get("/office/copies")[2]
        check(f"one of an earlier version reads: {new}", new in shown and WISHES[2] not in shown, shown)
    held.write_text(json.dumps({"kind": "restore", "why": "before rooms-restore /mnt/stick"}) + "\n", encoding="utf-8")
    shown = page.get("/office/copies")[2]
    check("and one of before a restore says so", "Before: rooms-restore from /mnt/stick, by the administrator" in shown, shown)
    held.write_text(json.dumps({"kind": "lines", "why": f"before {SECRET}, by anna"}) + "\n", encoding="utf-8")
    check("and the command shows no wishes", "choose T09, by anna" in stand.script("rooms-office", "backups"))
    held.write_bytes(kept)


def try_wishes(stand):
    """No journal and no reason has a list, and an earlier journal is rid of it."""
    journal = stand.data / "journal"
    texts = [one.read_text(encoding="utf-8") for one in (journal, *stand.data.glob("backups/*/why"))]
    check("what somebody wishes for is in no journal and no reason",
          not any(room in text for text in texts for room in WISHES), texts)
    lines = [(entry["line"], entry.get("answer")) for entry in stand.ask(ask="journal", last=500)["journal"] if "line" in entry]
    check("but how many rooms it has", ("choose T09 (3 rooms)", None) in lines and "choose T11 (1 room); choose T12 (3 rooms)" in
          " ".join(line for line, _ in lines), lines)
    answers = [entry["answer"] for entry in stand.ask(ask="journal", last=500)["journal"] if "answer" in entry]
    check("the answer, too", "chosen (3 rooms)" in answers, answers)
    old = [{"n": "1-1-1", "at": "2026-11-29T15:00:00+00:00", "who": "bert", "line": SECRET},
           {"n": "1-1-1", "at": "2026-11-29T15:00:01+00:00", "answer": f"chosen {' '.join(WISHES)}", "status": 0},
           {"n": "1-1-2", "at": "2026-11-29T15:00:02+00:00", "who": "bert", "line": f"{SECRET}; choose T08; grade T08 1"}]
    before = journal.read_bytes()
    journal.write_bytes(before + "".join(json.dumps(entry) + "\n" for entry in old).encode())
    check("an earlier journal is rid of wishes", stand.script("rooms-office", "blank-journal") == "blanked 3\n")
    after = journal.read_text(encoding="utf-8")
    check("and of nothing else", after.startswith(before.decode()) and not any(room in after for room in WISHES)
          and '"choose T09 (3 rooms); choose T08 (0 rooms); grade T08 1"' in after, after[len(before):])
    check("a second time there is nothing left", stand.script("rooms-office", "blank-journal") == "blanked 0\n")
    with open(journal, "a", encoding="utf-8") as held:
        held.write('{"n": "1-1-3", "at": "2026-11-29T15:0')  # as a power cut leaves it
    check("of an entry that was cut off its place stays", stand.script("rooms-office", "blank-journal") == "blanked 0\n"
          and CUT_OFF in journal.read_text(encoding="utf-8"))


def try_times(stand, page):
    """Each page has times of the zone, with its name."""
    with open(stand.data / "journal", "a", encoding="utf-8") as journal:
        journal.write(json.dumps({"at": "2026-11-29T22:15:00+00:00", "who": "bert", "note": "noted in another zone"}) + "\n")
    copy = stand.ask(ask="backups")["backups"][-1][0]
    os.kill(stand.server(), signal.SIGKILL)
    until(lambda: stand.ask(ask="view").get("ended"), 20, "the end of the server")
    until(lambda: stand.ask(ask="view")["server"], 20, "the next server")
    pages = ["", "draw", "journal", "copies", f"copies/{copy}/back", "about/T09", "record", "results"]
    for name in pages:
        shown = page.get(f"/office/{name}")[2]
        found = BARE.findall(shown)
        check(f"each time on the page {name or 'overview'} names its zone",
              not found and ("IST" in shown or name in ("record", "results")), found or shown[:3000])
    check("what was cut off is named there", CUT_OFF in page.get("/office/journal")[2])
    check("an entry of another zone is shown in this one", "2026-11-30 03:45:00 IST bert" in page.get("/office/journal")[2])
    shown = page.form("/office/person/T07/key", page="/office/person/T07/key")
    shown = page.get(shown[1]["location"])[2]
    check("a slip names the zone", re.search(r"made on [-0-9]{10} at [0-9:]{8} IST", shown), shown)
    record = page.form("/office/record", page="/office/record")[2]
    lines = re.findall("^# journal: (.*)$", record, re.M)
    check("so does the public record", lines and all(re.match(r"[-0-9]{10} [0-9:]{8} IST ", line) for line in lines), lines)
    fields = page.form(f"/office/copies/{copy}/back", page=f"/office/copies/{copy}/back")[1]
    shown = page.get(fields["location"])[2]
    check("the way back names both copies by their times",
          f"back at the copy of {local(copy)}. What it was before is in the copy of" in shown, shown[:2500])


def try_own_texts(stand, page):
    """What the keeper itself has written into the journal is in the clerk's language, also in all about one person."""
    at = "2026-11-29T22:20:00+00:00"
    with open(stand.data / "journal", "a", encoding="utf-8") as journal:
        for entry in ({"n": "8-1", "at": at, "who": "bert", "line": "leave T09"}, {"n": "8-1", "at": at, "answer": NOT_KNOWN},
                      {"n": "8-2", "at": at, "who": "bert", "line": "remove T09"}):
            journal.write(json.dumps(entry) + "\n")
    page.form("/office/language", {"language": "de"}, page="/office/")
    for name in ("journal", "about/T09"):
        shown = page.get(f"/office/{name}")[2]
        check(f"the page {name} says in German that an answer is not known", NOT_KNOWN not in shown
              and "nicht bekannt: Der Dienst endete, bevor er die Antwort notiert hatte" in shown, shown[-3000:])
        check("also of one that is not there", "nicht bekannt: Sehen Sie nach, ob es gewirkt hat" in shown, shown[-3000:])
    page.form("/office/language", {"language": "en"}, page="/office/")


def pressed_late(stand, page, step, *lines):
    """What a clerk reads who presses a step after the office has gone on by these lines, with the form of before."""
    form = page.hidden(f"/office/step/{step}")
    for line in lines:
        stand.office(line)
    page.post(f"/office/step/{step}", form)
    return seen_at(page, "/office/")


def try_refusals(stand, page):
    """A refusal has the page's words, and speaks of what the clerk sees."""
    stand.office("cancel")
    stand.office("open")
    shown = pressed_late(stand, page, "cancel", "close")
    check("who comes late reads how far the round is, in the words of the page", stand.ask(ask="view")["phase"] == "closed" and
          "The office has gone on. Round 2: the round is closed. Nothing was changed. Look before you go on." in shown, shown)
    page.form("/office/language", {"language": "de"}, page="/office/")
    stand.office("cancel")
    shown = pressed_late(stand, page, "open", "open", "cancel")
    check("and in German, too", "Inzwischen ging es weiter. Zurzeit läuft keine Runde. Es wurde nichts geändert." in shown, shown)
    page.form("/office/language", {"language": "en"}, page="/office/")
    before = stand.ask(ask="view")["people"]
    shown = plain(page.form("/office/person", {"ident": PEOPLE[0], "name": "Somebody Else"}, page="/office/register")[2])
    check("of one new person the page speaks of no line", "This person is in the register already. Look the person up on the page "
          "People. If this is somebody else, write another identifier." in shown and "Take the line" not in shown, shown)
    page.form("/office/rooms", {"change": "room", "code": ROOMS[0]}, page="/office/rooms")
    shown = seen_at(page, "/office/rooms")
    check("nor of one new room", "This room is in the register already. Look at the page Rooms." in shown and "Take the line" not in
          shown and stand.ask(ask="view")["people"] == before, shown)


def try_office_words(program):
    """All of it."""
    with Stand(program, TZ="Asia/Kolkata") as stand:
        stand.fill(ROOMS, PEOPLE)
        stand.start()
        stand.start_page()
        stand.start_proxy()
        page = Page(stand)
        check("this trial has a key that the page knows", stand.ask(ask="try", lines=[f"me {key_of('T09')}"])["answers"][0][1] == 0)
        year_of(stand, page)
        try_reasons(stand, page)
        try_wishes(stand)
        try_times(stand, page)
        try_own_texts(stand, page)
        try_refusals(stand, page)
        check("the page has noted no fault of its own", "rooms-page:" not in stand.log("page"), stand.log("page"))


if __name__ == "__main__":
    if len(sys.argv) != 2 or not Path(sys.argv[1]).exists():
        sys.exit("usage: /usr/bin/python3 deploy/trial/office_words.py PROGRAM")
    try_office_words(sys.argv[1])

"""What is blanked is in no file of the office afterwards, by whatever line: also if the keeper dies before the file is written
anew, or if another program has the file open then.

This run alone: /usr/bin/python3 deploy/trial/erased.py PROGRAM
"""

import base64
import contextlib
import errno
import re
import shutil
import sqlite3
import sys
import threading
from pathlib import Path
from unittest import mock

from beside import copies_of
from between import Between
from bundles import noted
from full import small_disk
from kills import content, servers_of
from office_forms import flat
from office_requests import Page
from parts import an_office, fault_of, rooms_of
from stand import Stand, check, key_of, until

# pylint: disable=wrong-import-order  # they are in the folder that the import of `beside` has added
from anew import Anew, are_same
from copies import rewrite
from office import Office
from program import Answer

MARK = "rooms.db.anew"
PEOPLE = 100  # on each list: more than a page of the file has room for


def secret_of(label):
    """A name that one list alone has."""
    return f"Zoe of {label}"


def bring(stand, *labels):
    """A list of people comes in under each of these labels. Each person has the label as identifier, in capitals."""
    for label in labels:
        people = "".join(f"{label.upper()}{number},{secret_of(label)},{key_of(f'{label}{number}')},\n" for number in range(PEOPLE))
        body = base64.b64encode(f"person,name,key,home\n{people}".encode()).decode()
        answer = stand.ask(ask="import", kind="people", label=label, body=body)
        check(f"the list {label} comes in", answer.get("done") and holds(stand, label), answer)


def holds(stand, label):
    """Whether the office's own files have the name of a list."""
    return any(secret_of(label).encode() in one.read_bytes() for one in stand.data.glob("rooms.db*"))


def remove(stand, *labels):
    """Removes the people of these lists from the register. The lists stay."""
    lines = [f"remove {label.upper()}{number}" for label in labels for number in range(PEOPLE)]
    check("they are removed", stand.ask(ask="do", lines=lines).get("made") == len(lines))


def copies_with(stand, *labels):
    """The kept copies that have the name of one of these lists."""
    return [one.parent.name for one in sorted(stand.data.glob("backups/*/rooms.db*"))
            if any(secret_of(label).encode() in one.read_bytes() for label in labels)]


def blanked_in(stand):
    """The labels of the lists that are blank."""
    return [label for label, _kind, _added, is_blank in stand.ask(ask="view")["lists"] if is_blank]


def is_written_anew(stand):
    """Whether nothing is left to be done."""
    return not (stand.data / MARK).exists()


def try_lines(stand):
    """A line `blank` erases as the command does. Before it no copy is made, as a copy would keep the list."""
    bring(stand, "a1", "a2", "a3", "a4")
    remove(stand, "a1", "a2", "a3", "a4")
    before, rows = len(stand.ask(ask="backups")["backups"]), content(stand)
    check("what was removed and what lists have is in the file", holds(stand, "a1") and holds(stand, "a4"))
    told = stand.command("do", "blank", "a1")
    check("a line blanks a list", told == (0, "ok\n", "") and not holds(stand, "a1") and blanked_in(stand) == ["a1"], told)
    told = stand.command("lines", given="blank a2\nblank a3\n")
    check("and so do several", told == (0, "ok\nok\n", "") and not holds(stand, "a2") and not holds(stand, "a3"), told)
    check("after no copy", len(stand.ask(ask="backups")["backups"]) == before)
    told = stand.command("lines", given="room B-1\nblank a4\n")
    check("with other lines, after a copy", told[:2] == (0, "ok\nok\n") and "rooms-office back" in told[2]
          and not holds(stand, "a4"), told)
    now = content(stand)
    rest = [{name: table for name, table in found.items() if name not in ("list", "room")} for found in (rows, now)]
    check("and all other rows are as before", rest[0] == rest[1] and len(now["list"]) == 4 and is_written_anew(stand))
    told = stand.command("do", "blank", "none")
    check("a label of no list is refused", told[:2] == (1, "refused 25 UnknownLabel\n"), told)
    for label in ("none", "No Label", "a\nb", ""):
        answer = stand.ask(ask="blank", label=label)
        check(f"and {label!r} by the command", answer["fault"] == "No list has come in under this label. The page Lists in has the "
              "labels. Nothing was changed.", answer)


def alarms(stand):
    """How many alarms of the watch say that the file could not be written anew."""
    return sum("could not be written anew" in one for one in stand.ask(ask="watch")["faults"])


def try_open(stand, between, page):
    """Another program has the file open, so no other file can take its place: the clerk reads that something is left to be done,
    and so does the administrator."""
    bring(stand, "b1", "b2", "b3")
    remove(stand, "b1", "b2", "b3")
    with open(stand.file, "rb"):
        between.before_next("kill -9 $REAL", after=1)
        said = stand.ask(ask="do", lines=["blank b3", "blank b2"])["fault"]
        check("so it is if the program dies in the middle", "1 of 2 lines were carried out before." in said
              and "Besides: what was erased may still be in free pages" in said and blanked_in(stand)[-1] == "b3", said)
        answer = stand.ask(ask="blank", label="b1")
        said = answer.get("unkept", "")
        left = "may still be in free pages" in said and "(another program has it open: as root, `lslocks`" in said
        check("the list is blank, and the keeper says what is left to be done", answer["blanked"] == "b1" and left
              and "Nothing was changed" not in said, answer)
        told = stand.command("blank", "b1")
        check("and so does the clerk's command", told[:2] == (0, "blanked b1\n") and "may still be in free pages" in told[2], told)
        page.form("/office/blank/b1", page="/office/blank/b1")
        shown = flat(page.get("/office/lists")[2])
        check("and the page", "The list b1 is blank." in shown and "What was erased may still be in free pages" in shown, shown)
        check("which is so", holds(stand, "b1") and holds(stand, "b3") and not is_written_anew(stand))
        before, made = copies_with(stand, "b1", "b3"), stand.ask(ask="backup")["name"]
        answer = stand.ask(ask="do", lines=["room B-3", "room B-4"])
        check("a copy that is asked for meanwhile, and one before lines, have nothing of it", answer["copy"] > made > before[-1] and
              copies_with(stand, "b1", "b3") == before, (before, made, answer, copies_with(stand, "b1", "b3")))
        stand.stop_keeper()
        stand.start()
        check("the watch says so, also after another start of the keeper", alarms(stand) == 1)
        check("residents have their server", stand.until_listening(stand.server_port) is None and stand.server())
    status, fields, _ = page.get("/office/blank/none")
    shown = flat(page.get("/office/lists")[2])
    check("of a label that there is not, the page asks nothing", (status, fields.get("location")) == (303, "/office/lists") and
          "Nothing was changed. No list has come in under this label." in shown, (status, fields, shown[:1000]))
    check("another line changes nothing of that", stand.office("room B-2") == "ok\n" and not is_written_anew(stand))
    check("the next list that is blanked takes it along", "unkept" not in stand.ask(ask="blank", label="b2") and
          not any(holds(stand, label) for label in ("b1", "b2", "b3")) and is_written_anew(stand) and not alarms(stand))


def try_killed(stand, between):
    """The keeper is killed after the program has blanked a list, and before the file is written anew. The next one does that."""
    bring(stand, "c1", "c2")
    remove(stand, "c1", "c2")
    between.before_next("kill -9 $KEEPER; sleep 60", after=1)
    clerk = threading.Thread(target=ended, args=(stand,))
    clerk.start()
    stand.keeper.wait()
    clerk.join()
    until(lambda: not servers_of(stand), 30, "the end of what the keeper had started")
    check("the file has what the list had", holds(stand, "c1") and not is_written_anew(stand))
    stand.start()
    check("the next keeper writes the file anew", blanked_in(stand)[-1] == "c1" and is_written_anew(stand))
    go_on = stand.ask(ask="blank", label="c2")
    check("and nothing is left of it", go_on == {"blanked": "c2"} and not holds(stand, "c1") and not holds(stand, "c2"), go_on)


def ended(stand):
    """Sends lines to a keeper that does not live to answer them."""
    with contextlib.suppress(ValueError):
        check("the keeper is killed before it answers", False, stand.ask(ask="do", lines=["blank c1", "blank c2"]))


def try_forget(stand, between):
    """A person is forgotten in part, as far as the program came. Asked again, the keeper does the rest."""
    bring(stand, "d1", "d2")
    person = "D10"
    body = base64.b64encode(f"person,grade\n{person},2\n".encode()).decode()
    check("another list names somebody", stand.ask(ask="import", kind="grades", label="d9", body=body).get("done"))
    before = stand.ask(ask="backup")["name"]
    copies = len(stand.ask(ask="backups")["backups"])
    between.before_next("kill -9 $REAL", after=2)
    answer = stand.ask(ask="forget", person=person)
    check("if the program dies in the middle, the answer says how far it came", "2 of 3 lines were carried out" in answer["fault"],
          answer)
    check("and so does the journal", [one[0] for one in noted(stand, 2)] ==
          [f"forget {person}; remove {person}; blank d1", f"forget {person}; blank d9"], noted(stand, 2))
    found = stand.ask(ask="compare", name=before)
    check("at a way back the clerk reads who was forgotten in part", found["forgotten"] == [person], found)
    check("which is so, and what is blanked is in no file", "d1" in blanked_in(stand) and "d9" not in blanked_in(stand) and
          person not in [row[0] for row in stand.ask(ask="view")["people"]] and not holds_list(stand), blanked_in(stand))
    answer = stand.ask(ask="forget", person=person)
    check("asked again, the keeper does the rest", answer["done"] and "d9" in blanked_in(stand) and answer["copy"], answer)
    check("with a copy before each", len(stand.ask(ask="backups")["backups"]) == copies + 2)
    answer = stand.ask(ask="forget", person=person)
    check("and once more, with nothing left, without a copy", answer["done"] and answer["copy"] is None and
          len(stand.ask(ask="backups")["backups"]) == copies + 2, answer)
    told = stand.command("back", before)
    check("who goes back by a command reads who was forgotten, and comes back by it", told[0] == 0 and
          f"who were forgotten: {person}. Forget them again: rooms-office forget PERSON" in told[2], told)
    check("and forth again", stand.command("back", told[1].strip())[0] == 0)
    between.before_next(between.by_hand("open"))
    answer = stand.ask(ask="forget", person="D11")
    check("what the office refuses meanwhile is not done", not answer.get("done") and answer["made"] == 0 and
          answer["answers"][-1][0].startswith("refused 1 BadPhase") and "d2" not in blanked_in(stand), answer)
    stand.office("cancel")


def holds_list(stand):
    """Whether the office's own files have the list d1, whose people are still in the register."""
    return any(f"D10,{secret_of('d1')}".encode() in one.read_bytes() for one in stand.data.glob("rooms.db*"))


def try_same(stand):
    """No file with other rows would take the office's place."""
    with copies_of(stand).copied() as copy:
        new = copy.with_name("new")
        rewrite(copy, new)
        check("a file that is written anew has the same rows", are_same(copy, new))
        for number, change in enumerate(("UPDATE person SET name = 'x' WHERE id = 'D12'", "DELETE FROM person WHERE id = 'D12'",
                                         "INSERT INTO room VALUES ('ZZ', 0)", "UPDATE list SET body = x'00' WHERE label = 'd2'",
                                         "CREATE TABLE other(a)", "DROP TABLE going")):
            other = copy.with_name(f"other{number}")
            shutil.copyfile(new, other)
            with contextlib.closing(sqlite3.connect(other, isolation_level=None)) as database:
                database.execute(change)
            check(f"and another one has not: {change}", not are_same(copy, other) and not are_same(other, copy))


def try_faults():
    """What goes wrong while the file is written anew leaves the office as it was, with the note that this is still to be done."""
    full = OSError(errno.ENOSPC, "No space left on device")
    with an_office() as settings:
        anew = Anew(Office(settings))
        check("nothing is to be done", not anew.finish() and not anew.mark.exists())
        with mock.patch("placing.to_disk", side_effect=full):
            check("without the note nothing is erased", "Nothing was changed" in fault_of(anew.begin) and not anew.mark.exists())
        anew.begin()
        taken = mock.patch.object(anew.program, "look", return_value=Answer("round 0 idle\n", 0))
        for what, place, fault, said in (
                ("a full disk", "placing.to_disk", full, "No space left on device"),
                ("other rows", "anew.are_same", lambda *_: False, "is not the same office"),
                ("a database that fails", "anew.rewrite", sqlite3.DatabaseError("malformed"), "malformed")):
            with taken, mock.patch(place, side_effect=fault):
                why = anew.finish()
            check(f"{what}: the keeper says so, and the office is as it was", said in why and "Nothing was changed" not in why
                  and rooms_of(settings.file) == ["OLD"] and anew.mark.exists(), why)
        with mock.patch.object(anew.program, "look", return_value=Answer("refused 21 NotAnOffice\n", 1)):
            check("and so is a file that the program refuses", "refused 21" in anew.finish() and anew.mark.exists())
        with taken:
            check("then the file is written anew", not anew.finish() and not anew.mark.exists()
                  and rooms_of(settings.file) == ["OLD"])


def try_full_memory():
    """The memory for copies is full. Nobody reads that the office is damaged."""
    with an_office() as settings:
        office = Office(settings)
        for text, code, said, is_damaged in (
                ("database or disk is full", sqlite3.SQLITE_FULL, "No space left on device", False),
                ("disk I/O error", sqlite3.SQLITE_IOERR_SHMSIZE, "No space left on device", False),
                ("unable to open database file", sqlite3.SQLITE_CANTOPEN, "unable to open", False),
                ("database disk image is malformed", sqlite3.SQLITE_CORRUPT, "is damaged", True),
                ("file is not a database", sqlite3.SQLITE_NOTADB, "is damaged", True),
                ("unsupported file format", sqlite3.SQLITE_ERROR, "is damaged", True)):
            fault = sqlite3.OperationalError(text)
            fault.sqlite_errorcode = code
            with mock.patch("copies.rewrite", side_effect=fault):
                why = fault_of(lambda: office.backups.keep("close", "before close"))
            check(f"the office is said to be {'' if is_damaged else 'not '}damaged at this fault of SQLite's: {text}", said in why
                  and ("damaged" in why) == is_damaged and not office.backups.names(), why)


def try_full(program):
    """The disk is full in the middle of lines: the clerk reads how far they came, and nothing else."""
    with small_disk() as disk:
        if disk is None:
            print("      a disk that is full in the middle was not tried: it takes the right to mount")
            return
        with Stand(program, data=disk) as stand:
            between = Between(stand)
            stand.start()
            stand.start_page()
            stand.start_proxy()
            try_full_between(stand, between, Page(stand), disk / "filler")


def try_full_between(stand, between, page, filler):
    """The same in an office whose disk this file fills. The log has room for some lines all the same."""
    fill = f"cat /dev/zero > {filler} 2> /dev/null"
    bring(stand, "e1", "e2")
    text = " ".join(f"E2{number}" for number in range(10, PEOPLE))
    shown = page.form("/office/many", {"act": "remove", "text": text}, page="/office/many")[2]
    held = re.search(r'name="held" value="(\w+)"', shown)
    between.before_next(fill, after=3)
    page.post("/office/many/do", {**page.hidden("/office/many", "/office/many"), "held": held[1] if held else ""})
    filler.unlink()
    shown, gone = flat(page.get("/office/register")[2]), 2 * PEOPLE - len(stand.ask(ask="view")["people"])
    check("of many who are removed the page says how many were, and not that nothing was changed", 0 < gone < PEOPLE - 10 and
          f"This was done for the first {gone} of {PEOPLE - 10} people, and not for the rest. At the line remove E2{gone + 10} it "
          "ended: The file, the disk or the memory failed." in shown and "Nothing was changed" not in shown, (gone, shown[:2000]))
    body = base64.b64encode("person,grade\nE110,2\n".encode()).decode()
    labels = [f"e{number}" for number in range(3, 23)]
    for label in labels:
        check(f"the list {label} comes in", stand.ask(ask="import", kind="grades", label=label, body=body).get("done"))
    for after, said in ((2, "Only a part of this was carried out."), (0, "The file, the disk or the memory failed.")):
        check("the log begins anew", stand.ask(ask="blank", label="e2") == {"blanked": "e2"})
        between.before_next(fill, after)
        page.form("/office/forget/E110", page="/office/forget/E110")
        filler.unlink()
        shown = flat(page.get("/office/about/E110")[2])
        check(f"of a person who is forgotten the page says: {said}", f"{said} " in shown and "The file, the disk or the memory "
              "failed. Look whether the change was made." in shown and "Nothing was changed" not in shown, shown[:2000])
    check("which is so", not set(labels) <= set(blanked_in(stand)))
    page.form("/office/forget/E110", page="/office/forget/E110")
    check("with room again it is done", {"e1", *labels} <= set(blanked_in(stand)) and is_written_anew(stand))


def try_erased(program):
    """All of it."""
    try_faults()
    try_full_memory()
    try_full(program)
    with Stand(program) as stand:
        between = Between(stand)
        stand.start()
        stand.start_page()
        stand.start_proxy()
        try_lines(stand)
        try_open(stand, between, Page(stand))
        try_killed(stand, between)
        try_forget(stand, between)
        try_same(stand)


if __name__ == "__main__":
    if len(sys.argv) != 2 or not Path(sys.argv[1]).exists():
        sys.exit("usage: /usr/bin/python3 deploy/trial/erased.py PROGRAM")
    try_erased(sys.argv[1])

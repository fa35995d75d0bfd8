"""What the keeper has beside the office's file: /usr/bin/python3 deploy/trial/office_beside.py PROGRAM.

It is damaged, the keeper is ended in the middle of a line, the office goes back to a copy, and the disk takes no more. The office
goes on, a date closes its own round alone, and nobody gets what was somebody else's.
"""

import base64
import datetime
import gzip
import json
import sys
import time
import zlib
from pathlib import Path

# The repository stays as it is.
sys.dont_write_bytecode = True

# pylint: disable=wrong-import-position  # nothing may be written before
from between import Between
from stand import OFFICE, PYTHON, Stand, check, key_of, until

PICTURE = base64.b64encode(b"\xff\xd8\xff" + bytes(200)).decode()


def damaged(packed):
    """A packed file in which one byte is another one, so that it cannot be unpacked."""
    for place in range(10, len(packed)):
        wrong = packed[:place] + bytes([packed[place] ^ 0xff]) + packed[place + 1:]
        try:
            gzip.decompress(wrong)
        except zlib.error:
            return wrong
        except (OSError, EOFError):
            pass
    return b""


def phase(stand):
    """How far the round is."""
    return stand.ask(ask="view")["phase"]


def in_seconds(seconds):
    """A time in so many seconds, as the clocks of the machine show it."""
    return (datetime.datetime.now() + datetime.timedelta(seconds=seconds)).isoformat(timespec="seconds")


def pictures(stand):
    """The pictures that are there."""
    return {one.name for one in (stand.folder / "told").glob("*.jpg")}


# --- what residents read

def try_told(stand):
    """A byte of what residents read is another one, and the file is gone."""
    told = stand.folder / "told" / "told.json.gz"
    stand.ask(ask="tell-rooms", rooms={f"A-{number}": {"text": f"Room {number}, with a balcony"} for number in range(101, 113)})
    stand.ask(ask="add-picture", room="A-101", body=PICTURE, shows="plan")
    stand.office("open")
    check("a date is set", "fault" not in stand.ask(ask="set-until", at=in_seconds(8), closes=True, who="anna"))
    whole, had = told.read_bytes(), pictures(stand)
    told.write_bytes(damaged(whole))
    answer = stand.ask(ask="told").get("fault", "")
    check("a byte that is another one is a fault by name", "what residents read of rooms is damaged" in answer, answer)
    until(lambda: phase(stand) == "closed", 60, "the round is closed by its date nevertheless")
    stand.stop_keeper()
    stand.start()
    check("and the keeper starts again", phase(stand) == "closed" and pictures(stand) == had)
    stand.stop_keeper()
    told.unlink()
    stand.start()
    stand.office("cancel")
    stand.office("open")
    stand.ask(ask="set-until", at=in_seconds(3600), closes=True, who="anna")
    until(told.exists, 30, "residents read the next date")
    stand.stop_keeper()
    stand.start()
    check("without the file the pictures stay", pictures(stand) == had, pictures(stand))
    told.write_bytes(whole)
    check("so it can be put back", stand.ask(ask="told")["told"]["pictures"]["A-101"][0]["file"] in pictures(stand))
    stand.ask(ask="drop-picture", room="A-101", file=next(iter(had)))
    check("and the last picture that is taken away is gone", not pictures(stand), pictures(stand))
    stand.office("cancel")


# --- a date, and the way back

def try_date(stand):
    """The office goes back to before a round was opened, and a clerk opens it again at once: it has no date."""
    for _ in range(5):
        copy = stand.ask(ask="backup")["name"]
        stand.office("open")
        stand.ask(ask="set-until", at=in_seconds(3600), closes=True, who="anna")
        stand.ask(ask="back", name=copy)
        stand.ask(ask="do", lines=["open"])
        time.sleep(1.5)  # in which the keeper looks at the clock
        until_when = stand.ask(ask="view")["until"]["until"]
        check("a round that is opened anew has no date of the opening before", until_when is None, until_when)
        copy = stand.ask(ask="backup")["name"]
        stand.ask(ask="set-until", at=in_seconds(3600), closes=True, who="anna")
        stand.ask(ask="back", name=copy)
        check("and keeps its own over a way back to itself", stand.ask(ask="view")["until"]["until"])
        stand.office("cancel")


# --- rounds that are over

def publish(stand):
    """From closing to publishing."""
    stand.office("close")
    stand.ask(ask="draw", who="anna", seed="5eed" * 16)
    for line in ("run", "publish"):
        stand.office(line)


def try_rounds(stand):
    """A round in which nobody moves leaves no trace in the office's file: it was settled, or given up after all."""
    stand.office("open")
    stand.office("withdraw P1")
    stand.office("cancel")
    stand.office("open")
    number, copy = stand.ask(ask="view")["number"], stand.ask(ask="backup")["name"]
    check("a round that was given up can come back", [one[1] for one in stand.ask(ask="given-up")["rounds"]][:1] == [number - 1])
    publish(stand)
    check("the next one has figures", number in [one[0] for one in stand.ask(ask="figures")["rounds"]])
    stand.ask(ask="back", name=copy)
    stand.office("cancel")
    known = [one[0] for one in stand.ask(ask="figures")["rounds"]]
    check("and none once it was given up after a way back", number not in known, known)
    stand.ask(ask="back", name=copy)
    publish(stand)
    stand.office("settle")
    check("nobody has moved", not stand.ask(ask="view")["settled"])
    given = stand.ask(ask="given-up")["rounds"]
    check("of rounds before a settled one nothing comes back", not given, given)
    stand.office("open")
    stand.office("cancel")
    given = [one[1] for one in stand.ask(ask="given-up")["rounds"]]
    check("but of those after it", given == [number + 1], given)


# --- what is under an identifier

# A keeper that is ended at a place of its own.
ENDS = """
import os, sys
sys.path.insert(0, {folder!r})
import {module}
{module}.{name} = lambda *_ignored: os._exit(9)
import keeper
sys.exit(keeper.main())
"""


def give(stand, person):
    """Gives a person an address, a language and an account."""
    stand.ask(ask="mail-addresses", addresses={person: f"{person.lower()}@college.example"})
    stand.ask(ask="set-languages", languages={person: "de"})
    stand.ask(ask="set-accounts", rule="list", list=f"person,account\n{person},{person.lower()}-account\n")
    check(f"{person} has an address, a language and an account", has(stand, person) == (True, True, True), has(stand, person))


def has(stand, person):
    """Whether anything is kept under an identifier: an address, a language, an account."""
    kept = stand.ask(ask="about", person=person)
    return bool(kept["mail"]["address"]), bool(kept["language"]["own"]), bool(kept["account"]["own"])


def people(stand):
    """Who is in the register."""
    return {row[0] for row in stand.ask(ask="view")["people"]}


def ended_at(stand, module, name, *lines):
    """Sends lines to a keeper that is ended at a place, and starts another one."""
    stand.stop_keeper()
    code = ENDS.format(folder=str(OFFICE), module=module, name=name)
    stand.keeper = stand.launch("keeper", PYTHON, "-B", "-c", code)
    stand.wait_for_keeper()
    try:
        answer = stand.ask(ask="do", lines=list(lines))
    except ValueError:
        answer = None
    check(f"the keeper is ended in {name}", stand.keeper.wait(30) == 9 and answer is None, answer)
    stand.start()
    left = [one.name for one in stand.data.glob("rooms.db.*")]
    check("the next one leaves nothing of it", not left, left)


def try_killed(stand, between):
    """The keeper is ended between the register and what is beside it."""
    give(stand, "P2")
    ended_at(stand, "beside_register", "BesideRegister.let_go", "remove P2")
    check("who was removed has nothing, whatever has happened to the keeper", "P2" not in people(stand)
          and not any(has(stand, "P2")), has(stand, "P2"))
    stand.ask(ask="do", lines=[f"person P3 {key_of('P3')} Pia Po"])
    give(stand, "P3")
    between.before_next("kill -9 $KEEPER")
    try:
        answer = stand.ask(ask="do", lines=["remove P3"])
    except ValueError:
        answer = None
    check("the keeper is killed before the line", stand.keeper.wait(30) == -9 and answer is None, answer)
    stand.start()
    check("and who was not removed after all has everything", "P3" in people(stand) and all(has(stand, "P3")), has(stand, "P3"))


def try_identifiers(stand):
    """Somebody else gets an identifier."""
    for person, how in (("Q1", "line"), ("Q2", "list")):
        copy = stand.ask(ask="backup")["name"]
        stand.ask(ask="do", lines=[f"person {person} {key_of(person)} Quinn Old"])
        give(stand, person)
        stand.ask(ask="back", name=copy)
        check("after a way back it stays, since the office may come forth again", all(has(stand, person)), has(stand, person))
        body = base64.b64encode(f"person,name,key,home\n{person},Rita New,{key_of('new' + person)},\n".encode()).decode()
        job = ({"ask": "do", "lines": [f"person {person} {key_of('new' + person)} Rita New"]} if how == "line" else
               {"ask": "import", "kind": "people", "label": "people-new", "body": body})
        done = stand.ask(**job, again=[person])["done"]
        check(f"somebody new comes by a {how}, as if it were the same person", done and person in people(stand))
        check("and gets nothing that was under the identifier", not any(has(stand, person)), has(stand, person))
    give(stand, "Q2")
    lines = ["remove Q2", f"person Q2 {key_of('third')} Third One"]
    check("nor does who comes by the lines that remove somebody", stand.ask(ask="do", lines=lines, again=["Q2"])["done"]
          and not any(has(stand, "Q2")), has(stand, "Q2"))
    (stand.data / "languages").write_text("no languages", encoding="ascii")
    answer = stand.ask(ask="do", lines=[f"person Q3 {key_of('Q3')} Quirin Q"]).get("fault", "")
    check("if it cannot be erased, nobody comes, and the clerk reads why", "the file of the languages" in answer
          and "nobody new comes into the register" in answer and "Q3" not in people(stand), answer)
    (stand.data / "languages").unlink()
    check("and then they do", stand.ask(ask="do", lines=[f"person Q3 {key_of('Q3')} Quirin Q"])["done"])


def try_in_part(stand, between):
    """Lines that are refused in the office, since somebody has sent one by hand: what is beside the register follows the
    others."""
    stand.ask(ask="do", lines=[f"person Q5 {key_of('Q5')} Quinn Five"])
    give(stand, "Q5")
    between.before_next(between.by_hand("room X1"))
    reply = stand.ask(ask="do", lines=["room X1", "remove Q5"])
    check("who was to be removed after a line that was refused has everything", reply["made"] == 0
          and all(has(stand, "Q5")), reply)
    between.before_next(between.by_hand("room X2"))
    reply = stand.ask(ask="do", lines=["remove Q5", "room X2", f"person Q5 {key_of('new')} Quinn New"], again=["Q5"])
    check("and who was removed before it has nothing", reply["made"] == 1 and "Q5" not in people(stand)
          and not any(has(stand, "Q5")), (reply, has(stand, "Q5")))
    stand.ask(ask="do", lines=[f"person Q6 {key_of('Q6')} Quinn Six"])
    (stand.data / "languages").write_text("no languages", encoding="ascii")
    between.before_next("kill -9 $REAL", after=1)
    said = stand.ask(ask="do", lines=["remove Q6", "room X3"])["fault"]
    check("if the program dies then, and what was kept cannot be erased, the clerk reads both", "1 of 2 lines were carried" in said
          and "Besides: The languages of those who are out of the register were not erased" in said, said)
    (stand.data / "languages").unlink()


def try_in_the_way(stand):
    """The office is to go back to a copy that has somebody else under an identifier. The journal is long, and a program reads the
    office's file."""
    copy = stand.ask(ask="backup")["name"]
    stand.ask(ask="do", lines=["remove P1", f"person P1 {key_of('newp1')} Paula New"], again=["P1"])
    give(stand, "P1")
    check("the copy has another P1", stand.ask(ask="compare", name=copy)["gone"] == ["P1"])
    with open(stand.data / "journal", "a", encoding="utf-8") as journal:
        for number in range(5):
            note = {"at": datetime.datetime.now().astimezone().isoformat(), "who": "bert", "note": f"{number}" * 1_000_000}
            journal.write(json.dumps(note) + "\n")
    found = stand.ask(ask="compare", name=copy)
    check("also if the journal has grown by five megabytes since", found["gone"] == ["P1"] and not found["newer_now"], found)
    with open(stand.file, "rb"):
        answer = stand.ask(ask="back", name=copy).get("fault", "")
    check("while a program reads the office's file, there is no way back", "Nothing was changed" in answer, answer)
    check("and nothing was changed: P1 has everything", all(has(stand, "P1")), has(stand, "P1"))
    check("once it has ended, there is one", "fault" not in stand.ask(ask="back", name=copy))
    check("and the other P1 gets nothing", not any(has(stand, "P1")), has(stand, "P1"))


def try_office_beside(program):
    """All of it."""
    with Stand(program) as stand:
        stand.fill([f"A-{number}" for number in range(101, 113)], ["P1", "P2"])
        between = Between(stand)
        stand.start()
        try_told(stand)
        try_date(stand)
        try_rounds(stand)
        try_killed(stand, between)
        try_identifiers(stand)
        try_in_part(stand, between)
        try_in_the_way(stand)


if __name__ == "__main__":
    if len(sys.argv) != 2 or not Path(sys.argv[1]).exists():
        sys.exit("usage: /usr/bin/python3 deploy/trial/office_beside.py PROGRAM")
    try_office_beside(sys.argv[1])

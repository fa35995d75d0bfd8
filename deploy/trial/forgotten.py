"""Who was forgotten, and when: at a way back the clerk reads who comes back that was forgotten since, also if the office is
damaged. What is kept of a person beside the register is erased, or the keeper says that it is not.

This run alone: /usr/bin/python3 deploy/trial/forgotten.py PROGRAM
"""

import base64
import sys
import time
from pathlib import Path
from unittest import mock

from between import Between
from parts import an_office
from stand import Stand, check, key_of
from untaken import in_the_way

# pylint: disable=wrong-import-order  # they are in the folder that the import of `parts` has added
from beside_register import BesideRegister
from settings import Fault

ALARM = "what is kept beside the register of people who are out of it could not be erased"
AGAIN, NOT_AGAIN = "The keeper tries it again when it starts.", "the keeper does not try it again: forget these people once more"


def copied(stand):
    """The name of a copy that is asked for, in a second in which nothing else is done."""
    time.sleep(1.1)
    name = stand.ask(ask="backup")["name"]
    time.sleep(1.1)
    return name


def comes(stand, copy):
    """Who comes back by a copy, and who of these was forgotten since."""
    found = stand.ask(ask="compare", name=copy)
    return [person for person, _name in found["come"]], found["forgotten"]


def try_when(stand):
    """Somebody was forgotten before the copy, or after it, or not at all since it failed. Gives the copy from before all."""
    first = copied(stand)
    check("T1 is forgotten, and comes in again", stand.ask(ask="forget", person="T1").get("done")
          and stand.ask(ask="do", lines=[f"person T1 {key_of('again')} Tim Again"], again=["T1"]).get("done"))
    second = copied(stand)
    stand.ask(ask="do", lines=["remove T1"])
    found = comes(stand, second)
    check("who was forgotten before the copy is not named", found == (["T1"], []), found)
    found = comes(stand, first)
    check("but at a copy from before that: the person of the copy is the one who was forgotten", found == (["T1"], ["T1"]), found)
    stand.ask(ask="forget", person="T2")
    found = comes(stand, second)
    check("and so is who was forgotten after the copy", found == (["T1", "T2"], ["T2"]), found)
    with in_the_way(stand.data / "rooms.db.leaving.part"):
        said = stand.ask(ask="forget", person="T3").get("fault", "")
    stand.ask(ask="do", lines=["remove T3"])
    found = comes(stand, second)
    check("nobody is named whom the keeper could not forget", "Nothing was changed" in said
          and found == (["T1", "T2", "T3"], ["T2"]), (said, found))
    return second


def try_damaged(stand, copy):
    """The office is damaged, so nobody knows who comes back by the copy. Who was forgotten since is named all the same."""
    stand.stop_keeper()
    with open(stand.file, "r+b") as file:
        file.seek(4096)
        file.write(bytes(8192))
    stand.start_keeper()
    told = stand.command("back", copy)
    stand.until_listening(stand.server_port)
    check("at a way back from a damaged office, too, the clerk reads who was forgotten", told[0] == 0 and
          "people of the copy who were forgotten: T2. Forget them again: rooms-office forget PERSON" in told[2], told)
    check("which is so", "T2" in [row[0] for row in stand.ask(ask="view")["people"]])


def is_alarmed(stand):
    """Whether the watch says that something could not be erased."""
    return ALARM in stand.ask(ask="watch")["faults"]


def try_erased_later(stand):
    """What is beside the register cannot be erased, neither at once nor when the keeper starts: it says so."""
    stand.ask(ask="set-languages", languages={"T5": "de"})
    file = stand.data / "languages"
    kept = file.read_bytes()
    file.write_text("no languages", encoding="ascii")
    said = stand.ask(ask="do", lines=["remove T5"]).get("unkept", "")
    check("what could not be erased is said, and that it is tried again", AGAIN in said and is_alarmed(stand), said)
    before = stand.log("keeper").count(AGAIN)
    stand.stop_keeper()
    stand.start()
    check("if that fails at the start, the keeper's log and the watch say so", is_alarmed(stand)
          and stand.log("keeper").count(AGAIN) == before + 1, stand.log("keeper"))
    stand.stop_keeper()
    file.write_bytes(kept)
    stand.start()
    check("once it is done, neither does", not is_alarmed(stand) and stand.log("keeper").count(AGAIN) == before + 1
          and not stand.ask(ask="about", person="T5")["language"]["own"], stand.log("keeper"))


def try_noted():
    """That it is tried again is said only of who is written down for that."""
    with an_office() as settings:
        failing = mock.Mock()
        failing.erase.side_effect = failing.forget.side_effect = Fault("It failed.")
        register = BesideRegister(settings.file, failing, failing, failing)
        with in_the_way(settings.file.with_name("rooms.db.leaving.part")):
            said = register.let_go(["T1"])
        check("who cannot be written down is not tried again, and the clerk reads so", NOT_AGAIN in said and "(T1)" in said
              and AGAIN not in said and register.failed == {"T1"}, said)
        said = register.let_go(["T1"])
        check("and who can be is", AGAIN in said and NOT_AGAIN not in said and register.leaving() == {"T1"}, said)
        check("a keeper that cannot read the register says so, too", "was not erased (It failed.)" in
              register.finish(mock.Mock(side_effect=Fault("It failed."))) and register.leaving() == {"T1"})
        failing.erase.side_effect = failing.forget.side_effect = None
        check("then it is done", not register.finish(set) and not register.leaving() and not register.failed)


def try_in_part(stand, between):
    """A person was removed by hand, and two lists name them. The program dies after the first one is blanked."""
    for kind, label, text in (("people", "l1", f"person,name,key,home\nT7,Person T7,{key_of('T7')},\n"),
                              ("grades", "l2", "person,grade\nT7,2\n")):
        body = base64.b64encode(text.encode()).decode()
        check(f"the list {label} comes in", stand.ask(ask="import", kind=kind, label=label, body=body).get("done"))
    stand.ask(ask="set-languages", languages={"T7": "de"})
    stand.stop_keeper()
    stand.tell("remove T7")
    stand.start()
    check("who was removed by hand has a language", stand.ask(ask="about", person="T7")["language"]["own"] == "de")
    between.before_next("kill -9 $REAL", after=1)
    said = stand.ask(ask="forget", person="T7").get("fault", "")
    check("who is forgotten in part, and was out of the register, has nothing beside it", "1 of 2 lines were carried out" in said
          and not stand.ask(ask="about", person="T7")["language"]["own"], said)


def try_forgotten(program):
    """All of it."""
    try_noted()
    with Stand(program) as stand:
        stand.fill(["A-1"], [f"T{number}" for number in range(1, 7)])
        between = Between(stand)
        stand.start()
        try_damaged(stand, try_when(stand))
        try_erased_later(stand)
        try_in_part(stand, between)


if __name__ == "__main__":
    if len(sys.argv) != 2 or not Path(sys.argv[1]).exists():
        sys.exit("usage: /usr/bin/python3 deploy/trial/forgotten.py PROGRAM")
    try_forgotten(sys.argv[1])

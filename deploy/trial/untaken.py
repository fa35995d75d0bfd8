"""A change of which the office takes nothing: the clerk reads so, the journal has it so, and the copy before it stays no longer
than the change, so that it makes no older copy go.

This run alone: /usr/bin/python3 deploy/trial/untaken.py PROGRAM
"""

import contextlib
import errno
import sys
from pathlib import Path
from unittest import mock

from between import Between
from parts import an_office
from stand import Stand, check, key_of, until

# pylint: disable=wrong-import-order  # they are in the folder that the import of `parts` has added
from change import Change
from entries import lines_of, merged
from office import Office
from program import Answer
from worker import Worker

NOTHING, LOOK = "Nothing was changed.", "Look whether this took effect."


def in_the_way(path):
    """A folder in the place of a file, which then cannot be written: root may write any file."""
    @contextlib.contextmanager
    def blocked():
        aside = path.with_name(f"{path.name}.aside")
        if path.exists():
            path.rename(aside)
        path.mkdir()
        try:
            yield
        finally:
            path.rmdir()
            if aside.exists():
                aside.rename(path)
    return blocked()


def last_of(stand):
    """The last change of the journal."""
    return merged(stand.ask(ask="journal", last=100)["journal"])[-1]


def copies(stand):
    """The names of the kept copies."""
    return [name for name, *_ in stand.ask(ask="backups")["backups"]]


def try_copies(stand, between):
    """Each way in which a change ends before the office takes anything of it. The copies of its kind stay."""
    for person in ("T1", "T2", "T3"):
        check(f"{person} is removed", stand.ask(ask="do", lines=[f"remove {person}"]).get("done"))
    before = copies(stand)
    leaving, journal = stand.data / "rooms.db.leaving.part", stand.data / "journal"
    for what, place in (("who leaves", leaving), ("that a line begins", journal)):
        for _ in range(3):
            with in_the_way(place):
                said = stand.ask(ask="do", lines=["remove T4"]).get("fault", "")
            check(f"if it cannot be noted {what}, nothing is changed, and no copy is left", NOTHING in said
                  and copies(stand) == before, (said, copies(stand)))
    with in_the_way(leaving):
        stand.ask(ask="forget", person="T4")
    entry = last_of(stand)
    check("the journal knows that a person was not forgotten so", entry["line"] == "forget T4" and not lines_of(entry)
          and entry.get("taken") is False and entry.get("copy") == "", entry)
    between.before_next("kill -9 $PPID")
    answer = stand.ask(ask="do", lines=["remove T4"])
    check("the same if the program dies before the line", NOTHING in answer.get("fault", "") and "unknown" not in answer
          and copies(stand) == before and not lines_of(last_of(stand)), (answer, copies(stand), last_of(stand)))
    between.before_next(f"(sleep 9 | {stand.program} lines --db {stand.file}) > /dev/null 2>&1 < /dev/null & sleep 1")
    answer = stand.ask(ask="do", lines=["remove T4"])
    check("or if another program has the file by then", answer.get("answers", [[""]])[-1][0].startswith("unavailable")
          and not answer.get("copy") and copies(stand) == before and not lines_of(last_of(stand)), (answer, copies(stand)))
    check("after all this T4 is still there", "T4" in [row[0] for row in stand.ask(ask="view")["people"]])
    until(lambda: stand.ask(ask="do", lines=["remove T4"]).get("done"), 60, "the end of the other program")
    check("and a line that stands has its copy", copies(stand) == [*before, last_of(stand)["copy"]], last_of(stand))


def fault_in(worker, whole, place):
    """The fault of a change during which this place says that there is no room; and whether nobody knows if it was made."""
    change = Change("anna", "room A", lambda _: [Answer("ok\n", 0)], whole=whole)
    owner, name = place
    with mock.patch.object(worker.program, "look", return_value=Answer("round 0 idle\n", 0)), \
            mock.patch.object(owner, name, side_effect=OSError(errno.ENOSPC, "full")):
        worker.carry_out(change)
    return change.fault, change.unknown


def try_said():
    """The disk or the memory is full. That a change may have taken effect is said only once it came as far as the office's file."""
    with an_office() as settings:
        worker = Worker(Office(settings))
        module = sys.modules["worker"]
        for what, whole, place, said in (
                ("before a line", False, (worker, "prepare"), NOTHING),
                ("while a line is carried out", False, (worker, "in_place"), LOOK),
                ("while a copy is looked at that is to be put back", True, (module, "make_whole"), NOTHING),
                ("once it is put into the office's place", True, (worker.place, "put"), LOOK)):
            fault, unknown = fault_in(worker, whole, place)
            check(f"a full disk {what}: {said}", said in fault and unknown == (said is LOOK), (fault, unknown))


def try_untaken(program):
    """All of it."""
    try_said()
    with Stand(program) as stand:
        stand.fill(["A-1"], [f"T{number}" for number in range(1, 6)])
        between = Between(stand)
        stand.start()
        try_copies(stand, between)
        check("no key is in the journal", key_of("T4") not in (stand.data / "journal").read_text(encoding="utf-8"))


if __name__ == "__main__":
    if len(sys.argv) != 2 or not Path(sys.argv[1]).exists():
        sys.exit("usage: /usr/bin/python3 deploy/trial/untaken.py PROGRAM")
    try_untaken(sys.argv[1])

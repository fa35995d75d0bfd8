"""The office's history as a tree, by journals that are made up: which copy is the last state that two states come from, and who
was removed since on the way to either.

No program is needed. This run alone: /usr/bin/python3 deploy/trial/branching.py
"""

import itertools
import json
import random
import re
import sys
import tempfile
from pathlib import Path

from stand import OFFICE, check

# The repository stays as it is.
sys.dont_write_bytecode = True
sys.path.append(str(OFFICE))

# pylint: disable=wrong-import-position,wrong-import-order  # they are in the folder of the line above
from about import entries_of
from branches import Branches, named_in
from command_texts import journal_text
from entries import merged
from former import changes_in
from history import history
from journal import CUT_OFF, EARLIER, NOT_KNOWN
from naming import Names
from phases import ALL, FROM


def name(second, end=""):
    """The name of a copy that was made in this second."""
    return f"20261130T1200{second:02}Z{end}"


class Told:
    """A journal that is made up."""

    def __init__(self):
        self.entries = []

    def begin(self, second, line, copy="", **more):
        """A change begins, after a copy or none. The clock of the office is an hour ahead of the names of copies."""
        number = f"n-{len(self.entries)}"
        entry = {"at": f"2026-11-30T13:00:{second:02}+01:00", "n": number, "who": "anna", "line": line, **more}
        self.entries.append({**entry, **({"copy": copy} if copy else {})})
        return number

    def change(self, second, line, copy="", status=0, answer="ok", **more):
        """A change, and its answer in the same second."""
        number = self.begin(second, line, copy, **more)
        self.entries.append({"at": self.entries[-1]["at"], "n": number, "answer": answer, "status": status, "ms": 3})
        return self

    def asked(self, second, copy):
        """A copy that somebody asked for is noted, once it is made."""
        self.entries.append({"at": f"2026-11-30T13:00:{second:02}+01:00", "who": "anna", "line": "backup", "answer": copy})
        return self

    def has(self, what, copy, base, removed=(), other=""):
        """Where a copy and now part, and who was removed since."""
        fork = Branches(self.entries).fork(copy, other)
        check(f"{what}: {copy} parts at {base}, and since then {list(removed) or 'nobody'} was removed",
              (fork.base, fork.removed()) == (base, set(removed)), (fork.base, fork.removed()))


def reused(first=0, step=1):
    """X is removed and given to somebody else after a copy, and the office goes back to it, and Y is removed there."""
    seconds = [first + step * number for number in range(6)]
    ends = [""] * 6 if step else ["", "-02", "-03", "-04", "-05", "-06"]
    names = [name(second, end) for second, end in zip(seconds, ends)]
    told = Told().asked(seconds[0], names[0]).change(seconds[1], "remove X", names[1])
    told.change(seconds[2], "person X (key) (name)").change(seconds[3], f"back {names[0]}", names[3])
    return told.change(seconds[4], "remove Y", names[4]), names


def ways():
    """A way back, and the way forth again."""
    told, names = reused()
    told.has("what was done before a way back is no part of now", names[0], names[0], "Y")
    told.has("the copy before it parts from now where the other one was made", names[3], names[0], "XY")
    told.has("so does one in between", names[2], names[0], "XY")
    told.has("a copy after it is of the branch of now", names[4], names[4], "Y")
    told.change(7, f"back {names[3]}, with the newer keys", name(7))
    told.has("after the way forth its copy is the end of the other branch", name(7), names[0], "XY")
    told.has("and what was done before the first way counts again", names[0], names[0], "X")
    told.has("while nothing has changed since its end", names[3], names[3])
    told.has("two copies part, too", names[4], names[0], "X", other=names[3])
    told.asked(8, name(8)).change(9, f"back {name(7)}", name(9)).change(10, "forget Z", name(10))
    told.has("a third branch", name(9), names[0], "XYZ")
    told.has("and the copies on it", name(8), names[0], "XYZ")


def one_second():
    """All of it in one second, in which the names of copies alone are in order."""
    told, names = reused(step=0)
    told.has("in one second, the copy before a way back", names[3], names[0], "XY")
    told.has("the copy before somebody was removed", names[1], names[0], "Y")
    told.has("the copy to which the office went back", names[0], names[0], "Y")
    after = name(0, "-07")
    told.asked(0, after)
    # What was done in the second of a copy that was asked for may have come after it.
    told.has("a copy that was asked for after a way back is of its branch", after, after, "Y")
    told.change(0, f"back {names[0]}", name(0, "-08"))
    told.has("and parts where the way led, once there is another one", after, names[0], "Y")
    told = Told().asked(0, name(0)).change(1, "room A").asked(3, name(3, "-02")).change(3, f"back {name(0)}", name(3, "-03"))
    told.has("a copy before a way back in its second is of the branch before", name(3, "-02"), name(0))
    told = Told().change(0, "remove X", name(0)).asked(0, name(0, "-02")).change(1, "person X")
    told.change(2, f"back {name(0, '-02')}", name(2))
    told.has("of a line in the second of a copy nobody knows which was first", name(0, "-02"), name(0, "-02"), "X")
    told.has("and so on the other branch", name(2), name(0, "-02"), "X")


def not_made():
    """Ways back that were not made, and one of which nobody knows."""
    told = Told().asked(0, name(0)).change(1, "remove X", name(1))
    told.change(2, f"back {name(0)}", name(2), status=1, answer="refused 22 OtherVersion 1")
    told.change(3, f"back {name(0)}", name(3), status=3, answer="fault: the disk is full")
    told.begin(4, f"back {name(0)}", name(4))  # it is being made now
    for second in (2, 3, 4):
        told.has("a way back that was not made begins no branch", name(second), name(second))
    told.has("so all since the copy counts", name(0), name(0), "X")
    for answer in (NOT_KNOWN, EARLIER):
        told = Told().asked(0, name(0)).change(1, "remove X", name(1))
        told.change(2, f"back {name(0)}", name(2), status=3, answer=answer).change(3, "remove Y", name(3))
        told.has("if nobody knows whether it was made, both may be so", name(0), name(0), "XY")
        told.has("also for the copy before it", name(2), name(0), "XY")


def lines():
    """What names somebody who was removed."""
    told = Told().asked(0, name(0)).change(1, "leave A; remove A; ..; remove B; remove C", name(1))
    told.change(2, "remove D; remove E", name(2), status=1, answer="refused 2 NoPerson")
    told.change(3, "remove G", name(3), status=3, answer=NOT_KNOWN)
    told.entries.append({"at": "2026-11-30T13:00:04+01:00", "who": "anna", "note": "remove H"})
    told.has("all lines of a change count, unless it was refused, and no note", name(0), name(0), "ABCG")
    told = Told().asked(0, name(0)).change(1, "reopen R1").asked(2, name(2)).change(3, f"back {name(0)}", name(3))
    told.change(4, "reopen R2")
    fork = Branches(told.entries).fork(name(2))
    named = [named_in(entries, "reopen") for entries in (fork.before_one, fork.before_other)]
    check("what was done on each branch is told apart", named == [{"R1"}, {"R2"}], named)


def partly():
    """A journal that was cut, copies of which it says nothing, and a clock that was set back."""
    told, names = reused()
    told.entries = told.entries[3:]
    told.has("a journal that was cut gives what it has", names[3], names[0], "Y")
    told.has("and a copy from before it is the older one", names[0], names[0], "Y")
    told = Told().change(1, "remove X").change(3, "remove Y")
    told.has("a copy that was put there by hand has the time of its name", name(2), name(2), "Y")
    told.has("one of later than all is that of now", name(4), name(4))
    told.change(5, f"back {name(2)}").change(6, "remove Z")  # as rooms-restore notes it, without a copy
    told.has("a way back without a copy", name(4), name(2), "YZ")
    ahead = "29990101T000000Z"
    told = Told().change(1, "remove X").asked(2, ahead).change(3, "remove Y").asked(4, f"{ahead}-02")
    told.has("after the clock was set back a copy is where it is noted", ahead, ahead, "Y")
    told.change(5, f"back {ahead}", f"{ahead}-03")
    told.has("and so are branches", f"{ahead}-03", ahead, "Y")
    told.entries.append({"line": "an entry that was cut off"})
    told.has("an entry without a time is none", f"{ahead}-03", ahead, "Y")


def record():
    """What the public record says of a round that was given up after a way back, with four copies in one second."""
    steps, keys = ("open", "close", "draw 3a", "run"), ", with the newer keys"
    for number, phase in enumerate(("while it was open", "after it was closed", "after the order was drawn"), 1):
        told, names = Told(), [name(0, end) for end in ("", "-02", "-03", "-04")]
        for step, copy in zip(steps, names):
            told.change(0, step, copy)
        told.change(1, f"back {names[number]}{keys}", name(1)).change(2, "cancel", name(2))
        said = history(told.entries, True, (1, "idle"), [])
        check(f"of four steps in one second the record says that the round was given up {phase}",
              any(f"given up {phase}: " in one for one in said), said)


def gap():
    """What the record says of a step that cannot follow on those before it: something was done by hand in between."""
    told = Told().change(0, "open", answer="round 1")
    for second, step in enumerate(("close", "draw 3a", "run", "publish"), 1):
        told.change(second, step)
    told.change(6, "cancel")  # the program refuses this of published results: somebody has settled the round, and opened another
    for now, which in ((2, "idle"), "round 2"), ((3, "idle"), "round 3"), ((2, "open"), "a round"):
        said = [one for one in history(told.entries, True, now, [1]) if "given up" in one]
        check(f"a round that was given up after a gap is none whose results were published: {which}",
              len(said) == 1 and said[0].endswith(f"{which} was given up: nobody knows whether its order was drawn"), said)


def one_entry():
    """Each reader of the journal makes one entry of a change: with the time at which it began, and the copy if that stayed."""
    told = Told().change(1, "person X (key) (name)", name(1))
    told.entries[-1].update(at="2026-11-30T13:00:59+01:00", copy="")  # the office took nothing of it
    told.entries.append({"line": CUT_OFF})
    shown = journal_text(told.entries, 2).splitlines()
    check("the command shows when a change began, and no copy that is gone",
          shown[0].startswith("2026-11-30T13:00:01+01:00  anna: ") and "before:" not in shown[0], shown)
    check("of an entry that was cut off it has the time of the one before",
          shown[1].startswith("2026-11-30T13:00:59+01:00  "), shown)
    with tempfile.TemporaryDirectory() as folder:
        journal = Path(folder) / "journal"
        journal.write_text("".join(json.dumps(one) + "\n" for one in told.entries), encoding="utf-8")
        of_person, came = entries_of(journal, "X", Names(set())), changes_in(journal)
    check("so has what is kept of a person", of_person == merged(told.entries)[:1] and of_person[0]["copy"] == "", of_person)
    check("and so has who came, and when", came == of_person, came)


def phases():
    """The page takes the phases in which a line is carried out from a table, which is that of docs/definitions.md."""
    names = {"AddRoom": "room", "AddPerson": "person", "SetHome": "home", "OpenRound": "open", "SetChoices": "choose",
             "CloseRound": "close", "SetGrade": "grade", "SetName": "name", "SetKey": "key"}
    text = (OFFICE.parents[1] / "docs/definitions.md").read_text("utf-8").partition("\n| Command | Phases |")[2]
    rows = re.findall(r"^\| `(\w+)` \| ([a-z, ]+) \|", text.partition("\n\n")[0], re.M)
    found = {names.get(name, name.lower()): ALL if said == "all" else tuple(said.split(", ")) for name, said in rows}
    differs = {line for line in {*FROM, *found} - {"order", "results"} if FROM.get(line) != found.get(line)}
    check(f"the phases of {len(found)} lines are those of the definitions", not differs, differs)


class Chance:
    """An office that does this and that by chance, and knows who everybody is: each person who is added is another one."""

    def __init__(self, seed, seconds):
        self.chance, self.seconds, self.second, self.last = random.Random(seed), seconds, 0, ""
        self.told, self.copies, self.others = Told(), {}, itertools.count()
        self.people = {ident: next(self.others) for ident in "ABC"}

    def keep(self):
        """A copy of the register, with the next name of this second."""
        number = int(self.last[17:] or 1) + 1 if self.last[:16] == name(self.second) else 0
        self.last = name(self.second, f"-{number:02}" if number else "")
        self.copies[self.last] = dict(self.people)
        return self.last

    def act(self, killed):
        """One change."""
        self.second += self.chance.choice(self.seconds)
        what, ident = self.chance.random(), self.chance.choice("ABCDE")
        if what < 0.3 and ident in self.people:
            self.told.change(self.second, f"remove {ident}", self.keep())
            del self.people[ident]
        elif what < 0.5 and ident not in self.people:
            self.told.change(self.second, f"person {ident} (key) (name)")
            self.people[ident] = next(self.others)
        elif what < 0.7 or not self.copies:
            self.told.asked(self.second, self.keep())
        else:
            self.go_back(self.chance.choice(sorted(self.copies)), killed and self.chance.random() < 0.2)

    def go_back(self, copy, killed):
        """A way back, in which the keeper is ended or not: then it is made or not."""
        self.told.change(self.second, f"back {copy}", self.keep(), *((3, NOT_KNOWN) if killed else ()))
        if not killed or self.chance.random() < 0.5:
            self.people = dict(self.copies[copy])

    def mistaken(self):
        """Who is taken for the same person and is another one, and for another one and is the same."""
        tree = Branches(self.told.entries)
        found: list[list[tuple[str, str, str]]] = [[], []]
        for one, other in itertools.product(self.copies, ["", *self.copies]):
            fork, then, now = tree.fork(one, other), self.copies[one], self.copies.get(other, self.people)
            for ident in then.keys() & now.keys():
                is_other = ident in fork.removed() or ident not in self.copies[fork.base]
                if is_other != (then[ident] != now[ident]):
                    found[is_other].append((one, other, ident))
        return found


def by_chance():
    """Many histories by chance: nobody is ever taken for the same person who is another one. If each change has a second of its
    own, and of each is known whether it was made, nobody is taken for another one either."""
    for seconds, killed, said in (((1,), False, "with a second for each change"), ((1,), True, "with keepers that are ended"),
                                  ((0, 0, 0, 1), False, "with changes in one second"), ((0, 0, 1), True, "with both")):
        wrong: list[list[tuple[object, ...]]] = [[], []]
        for seed in range(60):
            office = Chance(seed, seconds)
            for _ in range(seed % 25 + 3):
                office.act(killed)
            for kind, found in zip(wrong, office.mistaken()):
                kind.extend((seed, *one) for one in found)
        faults = wrong[0] + (wrong[1] if seconds == (1,) and not killed else [])
        check(f"{said} nobody is mistaken for another person", not faults, faults[:3])


def try_branching():
    """Tries them all."""
    ways()
    one_second()
    not_made()
    lines()
    partly()
    record()
    gap()
    one_entry()
    phases()
    by_chance()


if __name__ == "__main__":
    try_branching()

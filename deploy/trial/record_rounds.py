"""Tries the public record and the audit on drawn rounds, by the real program: record_rounds.py PROGRAM [SEED].

Each round goes through `rooms rehearse`. Its record, made from a file that holds what the program answered, is
rehearsed in turn: it has to give the same answers byte by byte, and the audit has to find nothing. Some rounds are kept
in files of the program's own. Wrong results are planted into records: the audit has to name each person whose result
is wrong, and to say why. All is drawn from the seed. Four processes take some two minutes, and leave nothing.
"""

import sys
from pathlib import Path

sys.dont_write_bytecode = True  # the repository stays as it is
sys.path.insert(0, str(Path(__file__).resolve().parent.parent / "office"))

# pylint: disable=wrong-import-position,wrong-import-order  # some of these are in the folder that was just named
import collections
import contextlib
import io
import os
import subprocess
import tempfile
import time
from concurrent.futures import ProcessPoolExecutor

import audit
from audit_record import Record
import record
from record_draws import Drawing, Round
from record_files import try_file, try_refusals
from record_plants import KINDS, may_be, plant, planted
from record_told import NotSo, Person, Told, Trial, answers, file_of, graded, to_moves, told_of

PEOPLE, PARTS = 14, 50
ROUNDS, FILES = 1000 // PARTS, 50 // PARTS  # of each part
LARGE = [(2000, 1990, 40), (300, 320, 20), (300, 280, 20), (300, 300, 40)]  # people, rooms, rooms on a list
SEARCHED = 5  # with so many people at most, all assignments are looked at


class Rounds(Trial):
    """The trial of drawn rounds."""

    def __init__(self, program: str, seed: str, folder: Path) -> None:
        super().__init__(program, seed, folder)
        self.empty = folder / "empty.db"
        subprocess.run([program, "new", "--db", self.empty], check=True, stdout=subprocess.DEVNULL)

    # --- a round

    def round(self, people: int, rooms: int, listed: int) -> None:
        """Draws a round, and compares its record and its audit with what the program said."""
        drawn = Drawing(self.rng, people, rooms, listed).round([0, 0, 0, 0, 1, 2, 45] if people <= PEOPLE else [1])
        told = told_of(drawn, lambda questions: answers(self.program, drawn.lines, questions))
        text = record.record(file_of(self.empty, told, self.folder / "drawn.db"), seeds_of(drawn))
        self.count(drawn, told)
        self.record(drawn, told, text)
        self.counts["rounds rehearsed"] += 1
        if people > PEOPLE or self.rng.random() < 0.04:
            self.command(drawn, text)

    def record(self, drawn: Round, told: Told, text: str) -> None:
        """A record says what the program knows, its rehearsal gives the same answers, and the audit finds nothing."""
        rows = Record(text).rows()
        gone = {person for person, _, withdrawn, leaves in told.people if withdrawn or leaves}
        self.check(rows["rooms"] == told.rooms, "rooms", text, told)
        leavers = {row[0] for row in rows["going"]}
        people = [(person, home, withdrawn, person in leavers) for person, _, home, withdrawn in rows["people"]]
        self.check(people == [as_recorded(person) for person in told.people], "people", text, told)
        self.check(rows["choices"] == {person: listed for person, listed in told.choices.items() if person not in gone},
                   "lists", text, told)
        self.check(dict(rows["grades"]) == told.grades, "grades", text, told)
        part = {person: grade for person, grade in told.grades.items() if person not in gone}
        self.check(graded(told.order) == part, "grades in the order", text, told)
        self.check(dict(rows["words"]) == told.words and dict(rows["results"]) == told.result, "results", text, told)
        number = 1 if "# A rehearsal begins at round 1" in text else drawn.number
        first, further = answers(self.program, text.splitlines(), to_moves("publish" == drawn.lines[-1], number))
        expected = asked_again(told, number) + told.order + told.results
        self.check(first.endswith("\n" + expected), "round, order and results", text, first, expected)
        self.check("refused" not in first, "no line is refused", text, first)
        self.check(further[-1] == told.moves, "moves", further, told.moves)
        self.counts.update({"rehearsals of a record": 1, "of these with the round's number": number == drawn.number})
        found = audit.Audit(rows)
        self.check(not found.faults(), "the audit finds nothing", text, found.faults())
        self.explanations(found)
        if len(found.order) <= SEARCHED:
            self.check(may_be(found), "a plain search finds nothing", text)
            self.counts["rounds searched"] += 1
        for kind in KINDS:
            self.plant(text, found, kind)

    def explanations(self, found: audit.Audit) -> None:
        """Each person's result is explained, by facts that fit together."""
        for person in self.rng.sample(found.order, min(len(found.order), 40)):
            facts, said, got = found.facts(person), found.explain(person), found.got[person]
            self.check(said[-1].startswith(f"So {person} ") and (got or "no room") in said[-1], person, said)
            assert facts is not None
            for (_, room), (giver, _) in zip(facts.circle, facts.circle[1:] + facts.circle[:1]):
                self.check(room is None or found.giver[room] == giver, "each room came from the next", facts)
            for gone in facts.gone:
                self.check(found.rank(person, gone.room) < found.rank(person, got), "a better room", facts)
                self.check(found.got[gone.to] == gone.room and gone.step <= facts.step, "who got it", facts)
            self.check(found.asked[person][-1][1] == got, "the last room asked for is the one that came", facts)
            self.counts["explanations"] += 1

    def in_file(self) -> None:
        """Draws a round that is kept in a file of the program's own."""
        drawn = Drawing(self.rng, self.rng.randint(2, 10), self.rng.randint(2, 10), 8).round([0, 0, 1])
        told, text = try_file(self, drawn)
        self.count(drawn, told)
        self.record(drawn, told, text)
        self.counts["rounds in a file"] += 1

    def count(self, drawn: Round, told: Told) -> None:
        """Counts what the drawn rounds had."""
        lists = told.choices
        part = {person: home for person, home, withdrawn, leaves in told.people if not withdrawn and not leaves}
        kept = {home for _, home, withdrawn, _ in told.people if withdrawn and home}
        left = {home for _, home, _, leaves in told.people if leaves}
        grades = {told.grades.get(person, 0) for person in part}
        shut = {room for room, out in told.rooms if out}
        had = {
            "in all": True,
            "with tenants and newcomers": len({home is None for home in part.values()}) == 2,
            "with people withdrawn": any(withdrawn for _, _, withdrawn, _ in told.people),
            "with leavers": bool(left),
            "with a leaver whose room was shut": None in left,
            "with a leaver's room on a list": any(left.intersection(listed) for listed in lists.values()),
            "with a leaver's room given away": any(room in left for room in told.result.values() if room),
            "with several grades": len(grades) > 1,
            "with a tenant withdrawn": bool(kept),
            "with shut rooms": bool(shut),
            "with a tenant displaced": bool(drawn.displaced),
            "with a list of a displaced tenant": any(lists.get(person) for person in drawn.displaced),
            "with a shut room on a list": any(shut.intersection(listed) for listed in lists.values()),
            "with the own room on a list": any(part.get(person) in listed for person, listed in lists.items()),
            "with the room of one withdrawn on a list": any(kept.intersection(listed) for listed in lists.values()),
            "with people without a list": any(person not in lists for person in part),
            "with equal words": len(set(told.words.values())) < len(told.words),
            "with moves": told.moves.count("\n") > 1,
            "with swaps": "\nswap" in told.moves,
            "not published": drawn.lines[-1] == "run",
            "after other rounds": drawn.number > 1,
        }
        self.counts.update({f"rounds {name}": int(here) for name, here in had.items()})

    # --- what is wrong is found

    def plant(self, text: str, found: audit.Audit, kind: str) -> None:
        """Plants a wrong result, and looks whether the audit names who has it, and why it is wrong."""
        made = plant(self.rng, found, kind)
        if not made:
            return
        false = planted(text, made.changed)
        wrong = audit.Audit(Record(false).rows())
        differences, broken = wrong.differences(), wrong.broken()
        for person, room in made.changed.items():
            got = found.got[person]
            said = f"{person} has {room or 'no room'}, and by the definition gets {got or 'no room'}: in step "
            why = f"asked for {got}" if got and got != found.home[person] else "nothing was left to ask for"
            lines = [line for line in differences if line.startswith(said)]
            self.check(len(lines) == 1 and why in lines[0], f"{kind}: {person} is named, and why", false, differences)
        self.check(len(differences) == len(made.changed), f"{kind}: nobody else is named", false, differences)
        self.check(wrong.faults() == differences + broken, "all faults are named", false)
        if kind == "twice":
            self.check(any("given twice" in line for line in broken), "a room given twice", false, broken)
        self.counts[f"planted: {kind}"] += 1
        if len(found.order) <= SEARCHED:
            self.check(bool(broken) != may_be(wrong), "broken promises, as by a plain search", false, broken)
            self.counts.update({"planted, and searched": 1, "of these with a broken promise": bool(broken)})

    def command(self, drawn: Round, text: str) -> None:
        """The command itself: its statuses, the seed, and a wrong one."""
        people = sorted(Record(text).words)
        if not people:
            return
        status, said, _ = self.audit(text, people[0])
        known = "\n# seed " in text
        headline = "all is right, if the witnesses'" if known else "the draw was not checked"
        self.check(status == (0 if known else 3) and headline in said and f"So {people[0]} " in said, "status", status, said)
        if drawn.seed:
            program = [self.program, "words", "--seed", drawn.seed, "--count", str(len(people))]
            words = subprocess.run(program, capture_output=True, text=True, check=True).stdout.split()
            self.check(words == audit.seed_words(drawn.seed, len(people)), "the words of a seed", words)
            self.check(f"\n# seed {drawn.seed}\n" in text, "the seed is in the record", text)
            status, said, _ = self.audit(text, "--seed", drawn.seed.upper())
            self.check(status == 0 and "all is right\n" in said and said.count(drawn.seed) == 1, "the seed", status, said)
            other = drawn.seed[:20] + ("1" if drawn.seed[20] == "0" else "0") + drawn.seed[21:]
            for status, said, _ in (self.audit(text, "--seed", other), self.audit(text.replace(drawn.seed, other))):
                self.check(status == 1 and f"not those of the seed {other}" in said, "a wrong seed", status, said)
                self.counts["wrong seeds"] += 1
        made = plant(self.rng, audit.Audit(Record(text).rows()), "exchange")
        if made:
            status, said, _ = self.audit(planted(text, made.changed))
            self.check(status == 1 and all(f"- {person} has " in said for person in made.changed), "status 1", said)
        cut = text[:self.rng.randrange(text.index("\nrun\n"))]
        status, said, why = self.audit(cut)
        self.check(status == 2 and not said and "cannot be read" in why, "a record that is cut off", cut, why)
        self.counts["records given to the command"] += 1

    def audit(self, text: str, *words: str) -> tuple[int, str, str]:
        """Runs audit.py on a record."""
        file = self.folder / "round.txt"
        file.write_text(text, encoding="utf-8")
        said, why = io.StringIO(), io.StringIO()
        with contextlib.redirect_stdout(said), contextlib.redirect_stderr(why):
            status = audit.main([str(file), *words])
        return status, said.getvalue(), why.getvalue()


def as_recorded(person: Person) -> Person:
    """A person as the record has them: who leaves and has no room is one who has withdrawn."""
    identifier, home, withdrawn, leaves = person
    return identifier, home, withdrawn or (leaves and home is None), leaves and home is not None


def asked_again(told: Told, number: int) -> str:
    """The answer to `round` in a rehearsal of the record."""
    recorded = [as_recorded(person) for person in told.people]
    withdrawn, going = sum(person[2] for person in recorded), sum(person[3] for person in recorded)
    phase = told.round.split()[2]
    leaving = f" going {going}" if going else ""
    return f"round {number} {phase} people {len(recorded)} withdrawn {withdrawn}{leaving}\n"


def seeds_of(drawn: Round) -> list[str]:
    """Seeds of which one may be that of the draw."""
    return [f"{1:064x}", drawn.seed] if drawn.seed else []


def try_part(program: str, seed: str, number: int) -> collections.Counter[str]:
    """One part of the trial, in a folder of its own: a few small rounds, and perhaps a large one."""
    memory = Path("/dev/shm")  # files in memory are quicker, where there is such a place
    with tempfile.TemporaryDirectory(dir=memory if os.access(memory, os.W_OK) else None) as folder:
        trial = Rounds(program, f"{seed} {number}", Path(folder))
        if number < len(LARGE):
            trial.round(*LARGE[number])
        for _ in range(ROUNDS):
            trial.round(trial.rng.randint(0, PEOPLE), trial.rng.randint(0, PEOPLE), trial.rng.randint(1, 8))
        for _ in range(FILES):
            trial.in_file()
        if number == PARTS - 1:
            try_refusals(trial)
        return trial.counts


def main(program: str, seed: str) -> None:
    """All of it."""
    began = time.monotonic()
    print(f"seed {seed}", flush=True)
    counts: collections.Counter[str] = collections.Counter()
    with ProcessPoolExecutor(4) as pool:
        try:
            for found in pool.map(try_part, [program] * PARTS, [seed] * PARTS, range(PARTS)):
                counts.update(found)
        except NotSo as why:
            pool.shutdown(cancel_futures=True)
            sys.exit(str(why))
    for name, count in sorted(counts.items()):
        print(f"{count:6} {name}")
    print(f"all is as it should be ({time.monotonic() - began:.0f} s)")


if __name__ == "__main__":
    if len(sys.argv) not in (2, 3):
        sys.exit("usage: /usr/bin/python3 deploy/trial/record_rounds.py PROGRAM [SEED]")
    main(str(Path(sys.argv[1]).resolve()), sys.argv[2] if len(sys.argv) == 3 else "1")

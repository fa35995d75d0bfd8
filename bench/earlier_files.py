"""Upgrades files that an earlier program wrote; bench/earlier-files.sh says what is checked."""

import sys
import tempfile
from dataclasses import dataclass
from pathlib import Path

from faults import copy_office, kept_words, opened
from foreign.earlier import ORDERS, STEPS
from foreign.program import SHORTEST_LOG, Cases, Program, expect, finish, left_alone, status_of
from foreign.tables import OWN_ORDER, Rows, expect_same, rows_of
from lists import COUNT, Office
from versions import drawn_words, filled

LINES = Path("bench/earlier-files.txt")
VERSION, TABLES = ORDERS["version 1 of the program"]
PHASES = {"idle", *(phase for phase, _, _ in STEPS)}
# A line over the large office may take this long, also on a busy machine.
SECONDS = 120


@dataclass(frozen=True)
class Copy:
    """A copy of the earlier program's file, its rows, and how many lines were carried out before."""

    file: Path
    rows: Rows
    lines_before: int


@dataclass(frozen=True)
class Recorded:
    """Lines and the answers that the earlier program gave, and the copies of its file."""

    answers: list[tuple[str, str]]
    copies: list[Copy]


def look(office: Path, tables: list[str]) -> Rows:
    """The rows of an office, which has to have these tables in this order. sqlite3 reads a copy: the log stays as it is."""
    with opened(office) as database:
        names = [name for (name,) in database.execute("SELECT name FROM sqlite_schema WHERE type = 'table' ORDER BY rowid")]
        expect(names == tables, f"the tables are {', '.join(names)}")
        return rows_of(database, tables)


def copy_of(office: Office, folder: Path, lines_before: int) -> Copy:
    """A copy of the office after so many lines."""
    file = folder / f"{lines_before}.db"
    copy_office(office.file, file)
    return Copy(file, look(file, TABLES), lines_before)


def carry_out(office: Office, lines: list[str], folder: Path) -> Recorded:
    """The earlier program carries out the lines. Its file is copied first of all, and after each line that changes a row."""
    answers: list[tuple[str, str]] = []
    copies = [copy_of(office, folder, 0)]
    for count, line in enumerate(lines, 1):
        ran = office.run(*line.split())
        answer = ran.text.removesuffix("\n")
        expect(ran.status == status_of(answer), f"{line[:60]}: {ran} came from the earlier program")
        answers.append((line, answer))
        copy = copy_of(office, folder, count)
        if copy.rows != copies[-1].rows:
            copies.append(copy)
    return Recorded(answers, copies)


def round_of(copy: Copy) -> tuple[int, str]:
    """The number of the round, and its phase."""
    _, _, number, phase = copy.rows["round"][0]
    assert isinstance(number, int) and isinstance(phase, str)
    return number, phase


def migrated(copy: Copy) -> Rows:
    """The rows of the copy as those of this program's version: nobody has a grade, and nobody leaves."""
    return {**copy.rows, "round": [(1, 3, *round_of(copy))], "grade": [], "going": []}


def answer_now(line: str, answer: str) -> str:
    """This program's answer to a line that the earlier one answered so: a person sees one line more."""
    return answer.replace("\nresult ", "\ngoing no\nresult ") if line.startswith("do me ") else answer


def try_copy(program: Program, file: Path, copy: Copy, recorded: Recorded) -> None:
    """This program refuses the copy, migrates it, and goes on with it as the earlier program did."""
    copy_office(copy.file, file)
    with left_alone(file.parent):
        program.answers(file, "do round", f"refused 22 OtherVersion {VERSION}")
        program.answers(file, "export people", f"refused 22 OtherVersion {VERSION}")
    program.answers(file, "migrate", "ok")
    expect_same(look(file, list(OWN_ORDER)), migrated(copy))
    program.answers(file, "migrate", "refused 22 OtherVersion 3")
    for line, answer in recorded.answers[copy.lines_before:]:
        program.answers(file, line, answer_now(line, answer))
    expect_same(look(file, list(OWN_ORDER)), migrated(recorded.copies[-1]))


def has_log(copy: Copy) -> bool:
    """Whether the log next to the copy has pages."""
    log = Path(f"{copy.file}-wal")
    return log.exists() and log.stat().st_size >= SHORTEST_LOG


def try_copies(program: Program, what: str, recorded: Recorded) -> int:
    """Every copy of an office. Gives how many held a surprise."""
    groups: dict[str, Cases] = {}
    for copy in recorded.copies:
        number, phase = round_of(copy)
        group = f"{what}, round {number} {phase}"
        cases = groups.setdefault(group, Cases(group))
        with tempfile.TemporaryDirectory() as folder, cases.case(f"after {copy.lines_before} lines"):
            try_copy(program, Path(folder) / "office.db", copy, recorded)
    surprises = sum(cases.tell(group) for group, cases in groups.items())
    count, phases = len(recorded.copies), {round_of(copy)[1] for copy in recorded.copies}
    print(f"{what}: {count} files in all, {sum(map(has_log, recorded.copies))} with pages in their log", flush=True)
    expect(phases == PHASES, f"{what} was in these phases: {', '.join(phases)}")
    return surprises


def small_rounds(earlier: str, folder: Path) -> Recorded:
    """The rounds of the small office."""
    lines = [" ".join(words if words[0] in ("import", "export") else ["do", *words]) for words in kept_words(LINES)]
    return carry_out(Office(earlier, folder / "office.db"), lines, folder)


def large_round(earlier: str, folder: Path) -> Recorded:
    """The round of the large office, from when everybody has handed in a list."""
    lines = ["do close", f"do draw {' '.join(drawn_words())}", "do run", "do publish", "do settle", "export people", "export moves"]
    return carry_out(filled(earlier, folder / "filled"), lines, folder)


def main(this: str, earlier: str) -> None:
    """Tries both offices, and succeeds if neither held a surprise."""
    surprises = 0
    for what, rounds in (("a small office", small_rounds), (f"an office of {COUNT} people", large_round)):
        with tempfile.TemporaryDirectory() as folder:
            surprises += try_copies(Program((this,), SECONDS), what, rounds(earlier, Path(folder)))
    finish(surprises)


if __name__ == "__main__":
    main(*sys.argv[1:])

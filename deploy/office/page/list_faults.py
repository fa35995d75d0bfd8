"""Finds the faults of a list. The page takes out the records whose faults it sees by itself (list_checks.py). The rest is
tried on a copy, the record that is refused is taken out, and the rest is tried again."""

import time
from collections.abc import Callable
from typing import NamedTuple

from journal import KEY, masked
from languages import _
from lines import ACCEPTED
from meanings import Meaning

import list_checks
import plain
from csv_list import CsvList
from keeper_client import Answer
from office_view import Office

MOST = 50
SECONDS = 20


class Fault(NamedTuple):
    """A record that the program refuses, as the clerk sees it."""

    row: int
    ident: str
    shown: str
    meaning: Meaning


class Findings(NamedTuple):
    """The faults of single records, what is wrong with the list as a whole, and whether there may be more faults."""

    faults: list[Fault]
    whole: Meaning | None
    more: bool


def fields_shown(fields: list[str], kind: str) -> list[str]:
    """Fields for the screen. A key is never shown, not even one that is no key yet or is in another column."""
    key = _(KEY)
    fields = [key if kind == "people" and place == 2 and field else field for place, field in enumerate(fields)]
    return [masked(field.encode("utf-8", "replace").decode(), key) for field in fields]


def shown(fields: list[str], kind: str) -> str:
    """A record for the screen."""
    return " | ".join(fields_shown(fields, kind))


def bad_record(answer: Answer) -> tuple[int, list[str]] | None:
    """The number of the record that an answer refuses, and the cause."""
    words = answer.text.split()
    if len(words) < 5 or words[:2] != ["refused", "15"]:
        return None
    return int(words[3]), words[4:]


def fault_of(table: CsvList, kind: str, number: int, meaning: Meaning) -> Fault:
    """A record of a list, as the clerk wrote it, with what is wrong with it."""
    record = table.records[number]
    fields = ["" if place == 2 and number in table.made else field for place, field in enumerate(record.fields)]
    return Fault(record.row, shown(fields[:1], kind), shown(fields, kind), meaning)


def find(office: Office, table: CsvList, kind: str, attempt: Callable[[bytes], Answer], apart: set[int]) -> Findings:
    """All faults of a list, without the records that are set apart. There is a limit of time and, for those that only
    the program sees, of their number."""
    again = dict(list_checks.overwritten(kind, table))
    taken, tries = apart | again.keys(), 0
    faults = [fault_of(table, kind, number, meaning) for number, meaning in again.items()]
    end = time.monotonic() + SECONDS
    while True:
        answer = attempt(table.body(without=taken))
        if answer.status == ACCEPTED:
            return Findings(sorted(faults), None, False)
        found = bad_record(answer)
        if found is None:
            return Findings(sorted(faults), refusal(answer), False)
        place, words = found
        left = [number for number in range(len(table.records)) if number not in taken]
        if place == 0 or words[0] == "many" or place >= len(left):
            return Findings(sorted(faults), plain.cause(words, kind), False)
        bad = dict(list_checks.find(office, kind, table, taken)) if not tries else {}
        bad.setdefault(left[place], plain.cause(words, kind))
        faults += [fault_of(table, kind, number, meaning) for number, meaning in bad.items()]
        taken |= bad.keys()
        tries += 1
        if tries > MOST or time.monotonic() > end:
            return Findings(sorted(faults), None, True)


def refusal(answer: Answer) -> Meaning:
    """Why a list was refused as a whole."""
    if answer.text.startswith("rooms: not"):
        return Meaning(_("The label is not well written."),
                       _("Write up to 32 small letters, digits and hyphens, the first no hyphen."))
    return plain.meaning(answer.text)

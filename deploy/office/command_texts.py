"""What the office's command prints of what is on record: an office, a person, lists, the journal."""

import contextlib
import csv
import io
from collections.abc import Callable
from typing import Any

from entries import merged
from lines import on_one_line
from register import going_in, takes_part, withdrawn_in


def office_text(rows: dict[str, Any]) -> str:
    """How far the round is, and who has no list on record, or an empty one."""
    away, going = withdrawn_in(rows), going_in(rows)
    without = [person for person in takes_part(rows) if person not in rows["choices"]]
    states = [bool(shut) for _, shut, _ in rows["rooms"]]
    lines = [f"round {rows['number']} {rows['phase']}",
             f"rooms {len(states)} shut {sum(states)}",
             f"people {len(rows['people'])} withdrawn {len(away)} going {len(going)} lists {len(rows['choices'])}",
             f"server {'running' if rows['server'] else 'not running'}"]
    if ended := rows["ended"]:
        lines.append(f"server ended by itself: {ended['times']}, last at {ended['at']} with status {ended['status']}")
    if until := rows["until"]["until"]:
        lines.append(f"lists until {until['local'].replace('T', ' ')} {until['zone']}, then "
                     f"{'the round is closed' if until['closes'] else 'a reminder'}")
    if rows["phase"] != "idle":
        lines += [" ".join([title, *(people or ["nobody"])])
                  for title, people in (("without a list:", without), ("withdrawn:", away), ("going:", going))]
    return "".join(f"{line}\n" for line in lines)


def person_text(rows: dict[str, Any], person: str) -> str:
    """What is on record of somebody in the register."""
    _, name, home, withdrawn = next(row for row in rows["people"] if row[0] == person)
    result = dict(rows["results"]).get(person, "no result")
    grade, going = dict(rows["grades"]).get(person, 0), person in going_in(rows)
    return (f"person {person}\nname {name}\nhome {home or 'none'}\ngrade {grade}\nround {rows['number']} {rows['phase']}\n"
            + " ".join(["choices", *rows["choices"].get(person, [])]) + "\n"
            + f"withdrawn {'yes' if withdrawn else 'no'}\ngoing {'yes' if going else 'no'}\nresult {result or 'none'}\n")


def lists_text(rows: dict[str, Any]) -> str:
    """The lists on record, as an import of choices reads them. The program does not export choices.

    Those of people who take no part are left out: with one of them the whole list could not be imported again.
    """
    lists = [(person, rows["choices"][person]) for person in sorted(takes_part(rows)) if person in rows["choices"]]
    return "".join(["person,choices\n", *(f"{person},{' '.join(rooms)}\n" for person, rooms in lists)])


def why_not_imported(answer: str, label: str, body: bytes) -> str:
    """Why a list has not come in, if the answer says too little of it."""
    if answer.split()[:2] == ["refused", "14"]:
        return (f"another list came in under the label {label}, or the list was blanked since, so nothing came in. Give this list "
                "another label.")
    return row_text(answer, body)


def row_text(answer: str, body: bytes) -> str:
    """After `BadRecord N`, with N from 1: in which row of the spreadsheet the record is, and whose it is; else nothing."""
    words = answer.split()
    if words[:3] != ["refused", "15", "BadRecord"] or words[3] == "0":
        return ""
    with contextlib.suppress(csv.Error, IndexError):  # of a file that is no list
        rows = enumerate(csv.reader(io.StringIO(body.decode("utf-8-sig", "replace"), newline="")), 1)
        row, fields = [(row, fields) for row, fields in rows if fields][int(words[3])]
        # A longer first field is no identifier and no code: it may be a key in the wrong column.
        return f"record {words[3]} is row {row} of the list" + (f", {fields[0]}" if len(fields[0]) <= 12 else "")
    return ""


def about_text(kept: dict[str, Any]) -> str:
    """All that is kept of a person besides what is on record: moves, imported lists, copies, mail, language, account,
    journal, and which texts of clerks have their name."""
    mail, language, account, backups = kept["mail"], kept["language"]["own"], kept["account"]["own"], kept["backups"]
    lines = [f"move {number} {old or 'none'} {new or 'none'}" for number, old, new in kept["moves"]]
    lines += [f"list {label} {kind} {','.join(fields)}" for label, kind, fields in kept["lists"]]
    lines += [f"copy {name} until {until}" for name, until in kept["copies"]]
    lines += [f"copy {name} until {until}, may have this person" for name, until in kept["unsure"]]
    lines += [f"backups {backups['folder']}: at most {backups['most']}, for at most {backups['days']} days"]
    lines += [" ".join(["name in", *filter(None, place)]) for place in kept["texts"]["places"]]
    lines += [f"mail address {mail['address']}"] if mail["address"] else []
    lines += [f"mail {at} {kind} of round {number}, {state}" for kind, number, state, at in mail["sent"]]
    lines += [f"language {language}"] if language else []
    lines += [f"account {account}"] if account else []
    lines += [f"journal {entry['at']} {entry.get('who', '')}: {entry.get('note', entry.get('line', ''))}"
              for entry in kept["journal"]]
    return "".join(f"{on_one_line(line)}\n" for line in lines)


def journal_text(noted: list[dict[str, Any]], count: int) -> str:
    """The last changes, each with its answer, on one line each, whatever somebody noted."""
    return "".join(f"{on_one_line(change_text(entry))}\n" for entry in merged(noted)[-count:])


def keys_again_text(people: list[str], command: str) -> str:
    """Whose keys are those of the copy again to which the office went back, and by which command a new one is made."""
    whose = "one person has" if len(people) == 1 else f"{len(people)} people have"
    return (f"{whose} the key of the copy again, and the key of before does not work: {' '.join(people)}. If a key was lost, or "
            f"others know it, make a new one: {command}")


def come_again_text(people: list[str]) -> str:
    """Who is in the register again since the office went back to a copy."""
    whose = "one person is" if len(people) == 1 else f"{len(people)} people are"
    return f"{whose} in the register again, with the key of the copy: {' '.join(people)}"


def forgotten_text(people: str, command: str) -> str:
    """Who of the copy was forgotten since it was made, and by which command they are forgotten again."""
    return f"people of the copy who were forgotten: {people}. Forget them again: {command}"


def went_back_texts(answer: dict[str, Any], command: Callable[[str], str]) -> list[str]:
    """What has become of people by a way back. `command` gives a command as a clerk of this office enters it."""
    keys = [person for person in answer.get("keys", []) if person not in answer["newer_then"]]
    come, gone, forgotten, lost, away = ([person for person, _ in answer.get("come", [])],
                                         *(" ".join(answer.get(part, [])) for part in ("gone", "forgotten", "lost", "part")))
    return [*([keys_again_text(keys, command("rooms-office key PERSON"))] if keys else []),
            *([f"what was kept of these identifiers may have been of other people, and was erased: {gone}"] if gone else []),
            *([come_again_text(come)] if come else []),
            *([forgotten_text(forgotten, command("rooms-office forget PERSON"))] if forgotten else []),
            *([f"these people had another list, which does not count now: {lost}. Tell them so"] if lost else []),
            *([f"the withdrawal, or the note that they leave the college, is again as it was: {away}. Tell them so"]
              if away else []),
            *([answer["unkept"]] if answer.get("unkept") else [])]


def change_text(entry: dict[str, Any]) -> str:
    """One change, with its answer."""
    more = f"  (before: {entry['copy']})" if entry.get("copy") else ""
    answer = entry.get("answer", "").replace("\n", "; ")
    said = f"noted: {entry['note']}" if "note" in entry else f"{entry.get('line', '')}  ->  {answer}{more}"
    return f"{entry['at']}  {entry.get('who', '')}: {said}"

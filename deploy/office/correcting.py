"""What can be asked of the keeper to correct what is on record of people, and to erase it: names, keys, and the bytes of lists.

| ask | fields | answer |
|---|---|---|
| blank | label, seen | blanked: the label; unkept: why something of the list may still be in the file |
| correct | person, name or key or both, seen, saw | corrected: the person; copy |
| keys | keys: by person, seen, saw | corrected: for how many of them, in their order; copy; refused: the next line, without its |
| | | key, and why it was not carried out |
| forget | person, seen, saw | as `do`: the person is removed, and the lists that name them are blanked |

For all of this the program has lines. A copy of the office is the first to answer them, and then the office, as it is with other
lines: what is answered stands. A blanked list keeps its label, and has seven bytes. The program answers each further import under
the label `refused 14 ListDiffers`, even one of the list that came in under it.
"""

from collections.abc import Callable
from pathlib import Path

from about import kept_in
from beside_register import BesideRegister
from change import Change
from job import Job, identifier_in, saw_in, seen_in, text
from journal import masked, masked_line, spoken_of
from languages import _
from lines import IDENTIFIER, LABEL, UNAVAILABLE, gone_by, lines_to_remove, name_shows_a_key, named, verb_of
from meanings import failed, meaning_of
from office import Office
from program import NOT_UNDERSTOOD, Answer, is_refused
from register import homes_in
from rows import rows_of
from settings import Fault, NotKnown, Refused
from worker import Worker, change_followed

# The parts of a correction in the order in which they are made. A key may be another person's by now; the program refuses a name
# of nobody alone.
PARTS = ("key", "name")


def why_refused(line: str, answer: Answer, reached: bool) -> str:
    """Why the program has not carried out a line `name`, `key` or `blank`, as a clerk reads it. `reached` is whether it was to do
    so in the office's file: what it does on a copy takes no effect."""
    said = "; ".join(answer.text.splitlines())
    if answer.status == UNAVAILABLE:
        return failed(said, reached)
    if answer.status == NOT_UNDERSTOOD.status and verb_of(line) in PARTS:
        return _("the program does not take this name or key ({said}). A name is not empty and has at most 60 bytes, of which a "
                 "letter with an accent takes two; a key has 16 to 64 small letters and digits.", said=said.strip())
    return str(meaning_of(answer.text))


def unchanged(why: str, answer: Answer = NOT_UNDERSTOOD) -> Fault:
    """The fault of something that was not done at all, with the answer of the program to it."""
    return Refused(_("{why} Nothing was changed.", why=why), answer)


def refusal(lines: list[str], answers: list[Answer], reached: bool) -> Fault:
    """The fault of lines of which none was carried out: why not the last one that was answered, by a copy or, if that was
    `reached`, by the office."""
    why = why_refused(lines[len(answers) - 1], answers[-1], reached)
    return NotKnown(why) if reached and answers[-1].status == UNAVAILABLE else unchanged(why, answers[-1])


def half_corrected(line: str, answer: Answer) -> Fault:
    """The fault of the second line of a correction, after which the new key works."""
    if answer.status == UNAVAILABLE:
        return NotKnown(_("the new key works. Then the file, the disk or the memory failed ({why}): look whether the name is "
                          "another one, too.", why="; ".join(answer.text.splitlines())))
    return Fault(_("{why} The new key works, and the name is as it was.", why=why_refused(line, answer, True)))


def lines_for(person: str, values: dict[str, str]) -> list[str]:
    """The lines that correct a person. The program would take away spaces that are too many, and so another value than it gets."""
    lines = [f"{part} {person} {values[part]}" for part in PARTS if part in values]
    if not IDENTIFIER.fullmatch(person):
        raise unchanged(str(meaning_of("refused 2 UnknownPerson")))
    for line in lines:
        if not all(line.split(" ")) or line.endswith("\r"):
            raise unchanged(why_refused(line, NOT_UNDERSTOOD, False))
    return lines


class Corrections:
    """Corrects and erases."""

    def __init__(self, office: Office, worker: Worker, beside: BesideRegister) -> None:
        self.program, self.copies, self.worker, self.beside = office.program, office.copies, worker, beside

    def requests(self) -> dict[str, Callable[[Job], Job]]:
        """What can be asked."""
        return {"blank": self.blank, "correct": self.correct, "keys": self.new_keys, "forget": self.forget}

    def blank(self, job: Job) -> Job:
        """Blanks a list. No copy is kept before: it would keep what is to be erased, as older ones do."""
        label = text(job, "label")
        lines = [f"blank {label}"]
        if not LABEL.fullmatch(label):
            raise unchanged(str(meaning_of("refused 25 UnknownLabel")))
        change = self.worker.change(Change(job["who"], masked(lines[0]), lambda file: self.program.tell_all(lines, file),
                                           lines=lines, erases=True, seen=seen_in(job)))
        if is_refused(change.answers):
            raise refusal(lines, change.answers, change.reached)
        return {"blanked": label, **change.unkept}

    def correct(self, job: Job) -> Job:
        """Gives a person another name or key. The journal has neither."""
        person = text(job, "person")
        values = {name: text(job, name) for name in ("name", "key") if name in job}
        if not values:
            raise Fault("not understood: neither name nor key")
        if name_shows_a_key(values.get("name", "")):
            raise Fault(_("the name has a word that may be a key. Nothing was changed."))
        spoken = masked(f"correct {person}: {' and '.join(values)}")
        lines = lines_for(person, values)
        change = self.worker.change(self.correction(job, lines, spoken, spoken))
        if is_refused(change.answers) and change.made:
            raise half_corrected(lines[change.made], change.answers[-1])
        if is_refused(change.answers):
            raise refusal(lines, change.answers, change.reached)
        return {"corrected": person, "copy": change.copy}

    def new_keys(self, job: Job) -> Job:
        """Gives many people other keys, after one copy of the office. The journal has the people alone. If the office does not take
        the key of one of them, those before it stand. Their owners need slips, so that is no fault."""
        keys = job["keys"]
        if not isinstance(keys, dict) or not keys or not all(isinstance(key, str) for key in keys.values()):
            raise Fault("not understood: keys are no texts by person")
        lines = [line for person, key in keys.items() for line in lines_for(person, {"key": key})]
        change, why = self.correction(job, lines, spoken_of_keys(lines), short_of_keys(lines)), ""
        change.speak = spoken_of_keys
        try:
            if is_refused(self.worker.change(change).answers):
                why = why_refused(lines[len(change.answers) - 1], change.answers[-1], change.reached)
        except Fault as fault:
            if not change.made:
                raise
            why = str(fault)
        if why and not change.made:
            raise refusal(lines, change.answers, change.reached)
        reply = {"corrected": change.made, "copy": change.copy}
        return {**reply, "refused": [masked_line(lines[change.made]), why]} if why else reply

    def correction(self, job: Job, lines: list[str], spoken: str, short: str) -> Change:
        """A change by these lines. `spoken` is what the journal says of all of them, `short` the copy that is kept before."""
        return Change(job["who"], spoken, lambda file: self.program.tell_all(lines, file), kind="correct", before=short,
                      lines=lines, seen=seen_in(job), saw=saw_in(job))

    def forget(self, job: Job) -> Job:
        """Removes a person, and blanks each kept list that names them. What was done of it stands, and a clerk who asks for it
        again gets the rest. If nothing is left, no copy is kept before; the file is written anew all the same, since free pages may
        have who was removed before."""
        person = identifier_in(job)
        line = f"forget {person}"

        def carry_out(file: Path) -> list[Answer]:
            lines = change.lines if file == self.copies.file else lines_to_forget(person, file)
            return self.program.tell_all(lines or ["round"], file)

        def follow() -> str:  # who is out of the register has nothing beside it, whatever has become of the lines after that
            is_out = not named(change.lines, "remove") or gone_by(change.lines[:change.made])
            return self.beside.let_go([person]) if is_out else ""

        change = Change(job["who"], line, carry_out, plan=lambda copy: lines_to_forget(person, copy), kind="forget", before=line,
                        register=self.beside.prepare, gone={person}, erases=True, seen=seen_in(job), saw=saw_in(job),
                        speak=lambda lines: spoken_of_forgotten(line, lines))
        return change_followed(self.worker, change, follow).told()


def lines_to_forget(person: str, copy: Path) -> list[str]:
    """The lines by which the office forgets a person, by a copy of it: first those that may be refused."""
    homes = homes_in(rows_of(copy))
    labels = sorted({record[0] for record in kept_in(copy, person)["lists"]})
    return [*(lines_to_remove(person, homes[person]) if person in homes else []), *(f"blank {label}" for label in labels)]


def spoken_of_forgotten(line: str, lines: list[str]) -> str:
    """Some of the lines by which a person is forgotten, as the journal has them. Once they begin to erase the person, it has that,
    too: who was forgotten in part is named nowhere, and at a way back the clerk reads that the person was forgotten."""
    said = spoken_of(lines)
    return said if all(one.startswith("leave ") for one in lines) else f"{line}; {said}"


def short_of_keys(lines: list[str]) -> str:
    """Lines that make new keys, in short: how many they are."""
    return f"new keys ({len(lines)})"


def spoken_of_keys(lines: list[str]) -> str:
    """The same with whose keys they are, as the journal has it."""
    return masked(f"{short_of_keys(lines)}: {' '.join(line.split(' ')[1] for line in lines)}")

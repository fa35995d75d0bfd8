"""The page's texts: the phases of a round, its steps, kinds of lists, and what the program's answers mean.

The constants have them in English, and marked. Who shows one translates it; the functions below give what is translated.
"""

from typing import NamedTuple

from house_places import here
from languages import N_, _, ngettext
from lines import UNAVAILABLE, is_copied_before
from meanings import REFUSALS, Meaning, meaning_of
from phases import OPEN, REGISTER
from seen import STATES

HOUSE = here().house  # or nothing
MOST_UNFOLDED = 40


def title() -> str:
    """What the page is called: the room office, and of which house."""
    return _("Room office: {house}", house=HOUSE) if HOUSE else _("Room office")


def begun(text: str) -> str:
    """A text as the beginning of a sentence."""
    return text[:1].upper() + text[1:]


def unfolded(count: int) -> str:
    """What opens a fold-out with so many people or rooms in it from the start: not if there are many."""
    return " open" if count <= MOST_UNFOLDED else ""


class Phase(NamedTuple):
    """How far a round is, also with its number, and what comes next."""

    title: str
    numbered: str
    following: str


class Step(NamedTuple):
    """A step of the round: what it does, and how it can be taken back."""

    name: str
    does: str
    undo: str


class Kind(NamedTuple):
    """A kind of list: its first line, what is in its columns, and when it can be imported."""

    header: str
    columns: str
    phases: tuple[str, ...]
    since: int  # the version of the office's file that knows it


# The version of the office's file that the program works on.
VERSION = 3

PAGES = {
    "/office/": N_("Overview"), "/office/lists": N_("Lists in"), "/office/register": N_("People"), "/office/rooms": N_("Rooms"),
    "/office/told": N_("For residents"), "/office/draw": N_("Draw"), "/office/results": N_("Results"),
    "/office/print": N_("Print and export"), "/office/copies": N_("Copies"), "/office/journal": N_("Journal"),
}

PHASES = {
    "idle": Phase(N_("No round is under way"), STATES["idle"],
                  N_("Bring rooms, people and homes up to date. Then open the round.")),
    "open": Phase(N_("The round is open"), STATES["open"],
                  N_("Residents hand in their lists. When the time is over, close the round.")),
    "closed": Phase(N_("The round is closed"), STATES["closed"],
                    N_("The lists are final. Next, draw the order of the participants.")),
    "drawn": Phase(N_("The order is drawn"), STATES["drawn"],
                   N_("Next, let the program give the rooms by the lists and the order.")),
    "ran": Phase(N_("The rooms are given"), STATES["ran"],
                 N_("Only the office sees who gets which room. Check the results, then publish them.")),
    "published": Phase(N_("The results are published"), STATES["published"],
                       N_("Each resident sees their own result. Print the letters and the plan of moves. On the day of "
                          "moving, settle the round.")),
}

# `cancel` is the last one: it is never the step that comes next.
STEPS = {
    "open": Step(N_("Open the next round"),
                 N_("Residents can hand in lists from then on. Homes cannot change until the round is over."),
                 N_("To take it back, give the round up. Lists that are on record by then can come back into the next "
                    "round.")),
    "close": Step(N_("Close the round"),
                  N_("Nobody can hand in or change a list any more. No person and no room can be added."),
                  N_("You cannot open the round again. If you give it up, its lists can come back into the next round.")),
    "draw": Step(N_("Draw the order"), N_("Each participant gets a place in the order."),
                 N_("You cannot draw again in this round.")),
    "run": Step(N_("Give the rooms"),
                N_("The program works out who gets which room. Only the office sees the results."),
                N_("The program always gives the same rooms. You can still give the round up.")),
    "publish": Step(N_("Publish the results"), N_("Each resident sees their own result from then on."),
                    N_("You cannot take it back, and you cannot give the round up any more.")),
    "settle": Step(N_("Settle the round"),
                   N_("The new rooms become the homes, who leaves the college has no room any more, the moves are "
                      "recorded, and the round is over."),
                   N_("You cannot take it back. The lists, the order and the results of this round are deleted; the moves "
                      "stay. First download the public record, and print the letters.")),
    "cancel": Step(N_("Give the round up"),
                   N_("All lists, withdrawals, the order and the results of this round are deleted, and so is who leaves "
                      "the college. The number of the round stays used."),
                   N_("You cannot take it back. But once you have opened the next round, the page can bring lists, withdrawals "
                      "and notes of who leaves into it (Overview). To send a list of choices yourself, take a new label: under "
                      "the old label nothing is imported.")),
}
# Before a withdrawal, and before a note that somebody leaves.
NOT_WITHIN = N_("You cannot take it back within this round. The only ways are to go back to the copy from before, or to give the "
                "whole round up.")
STILL_KEPT = N_("Kept lists and copies still hold names and keys. Blank the lists on the page Lists in.")
COPY_FIRST = N_("The keeper makes a copy of the office first. The page Copies brings you back to it; what happens after "
                "the copy is then lost.")

# Why the residents' server does not run.
STARTING = Meaning(N_("It is being started, as after each change."),
                   N_("Load this page again in some seconds. If it still does not run, call the administrator."))
FAILED = Meaning(N_("The file, the disk or the memory failed, or something ended it. The keeper tries again every few seconds."),
                 N_("Call the administrator, who looks whether the disk is full or broken, and reads journalctl -u {keeper}."))
ENDED = Meaning(N_("It refused the office's file, which is right again. It is not started again by itself."),
                N_("Call the administrator, who starts the keeper again: systemctl restart {keeper}."))
# What a question says of a step in a round in which nobody takes part.
NOBODY = {
    "open": N_("Nobody is in the register who could take part. You can still bring in rooms and people while the round is open."),
    "close": N_("Nobody takes part in this round, so no room will be given."),
}

OTHER_RESULTS = N_("The independent audit finds other results. Do not go on, and call the administrator.")

KINDS = {
    "rooms": Kind("room", N_("One room code a line."), REGISTER, 1),
    "people": Kind("person,name,key,home",
                   N_("Identifier, name, key, and the room where the person lives, or nothing. The name may be in two columns, "
                      "first name and last name. Without key and home the list fits too."), REGISTER, 1),
    "grades": Kind("person,grade", N_("Identifier, and a grade from 0 to 9. A smaller grade is earlier in the order."),
                   REGISTER, 2),
    "choices": Kind("person,choices", N_("Identifier, and the room codes, the best first, with one space between two."),
                    OPEN, 1),
}
# What residents read of rooms comes as a list too, which the program knows nothing of.
DESCRIPTIONS = "descriptions"
OWN_KINDS = {
    DESCRIPTIONS: Kind("room,house,floor,size,rent,text",
                       N_("Room code, and what residents read of the room. All columns but the first may be absent or empty."),
                       tuple(PHASES), 1),
}
# What the program exports for a spreadsheet. Its list of people is apart: it has each name as it is, also a formula.
EXPORTS = {"rooms": N_("Rooms"), "grades": N_("Grades, as they can come in again"), "moves": N_("Moves of all settled rounds")}
PEOPLE = "people"

TOO_LONG = N_("This list is longer than 262,144 bytes. Nothing came in. Split it in two, with a label each.")
# Of lists that have no label: a second one takes the place of the first, or comes in beside it.
DESCRIPTIONS_TOO_LONG = N_("This list is longer than 262,144 bytes. Nothing was changed. A second list would take the place of "
                           "this one, so shorten its texts.")
ADDRESSES_TOO_LONG = N_("This list is longer than 1,000,000 bytes. Nothing came in. Split it in two.")
LABEL_LIKE_A_KEY = N_("A label with 16 letters and digits in a row may be a key, and the journal takes no keys. Write "
                      "another label.")
# What may stand in the columns, with examples, as the page of lists has it.
WRITTEN = {
    "room": N_("A room code has up to eight capital letters, digits and hyphens, and begins with no hyphen, such as N-105 or "
               "12B. A space or a point cannot be in it: write N-1-05 for N 1.05."),
    "person": N_("An identifier has up to twelve capital letters and digits, such as 2400777 or S2400777."),
}
CODE = N_("Write a room code: up to eight capital letters, digits and hyphens, the first no hyphen.")
IDENTIFIER = N_("Write an identifier: up to twelve capital letters and digits.")
FIELDS = {
    "rooms": (CODE,),
    "people": (IDENTIFIER,
               N_("Write a name of up to 60 bytes, without a space at an end, two spaces in a row, or a line break."),
               N_("Write a key of 16 to 64 small letters and digits, or leave the field empty to get a new key."),
               N_("Write a room code: up to eight capital letters, digits and hyphens, the first no hyphen. Leave the field empty "
                  "for a person without a room.")),
    "grades": (IDENTIFIER, N_("Write a grade: one digit from 0 to 9.")),
    "choices": (IDENTIFIER, N_("Write up to 40 room codes, each once, with one space between two.")),
}
# What a list as a whole can be refused for, by the word after the record's number.
CAUSES = {
    "header": Meaning(N_("The first line is not the first line of this kind of list."),
                      N_("Check that you chose the right kind. Save the list as CSV with the character set UTF-8 and "
                         "commas, not semicolons.")),
    "many": Meaning(N_("The list has more than 10,000 records."), N_("Split it in two.")),
    "fields": Meaning(N_("This line has more or fewer fields than the first line."),
                      N_("Put a name with a comma in double quotes. Keep the comma of an empty field.")),
    "text": Meaning(N_("This line has signs that are not UTF-8."), N_("Save the list again with the character set UTF-8.")),
}


def copy_first(*lines: str) -> list[str]:
    """What a question says of the copy that the keeper makes before these lines, if it makes one."""
    return [_(COPY_FIRST)] if is_copied_before(list(lines), {}) else []


def people(count: int) -> str:
    """So many people."""
    return ngettext("one person", "{count} people", count)


def kinds(version: int) -> dict[str, Kind]:
    """The kinds of lists that an office of this version takes."""
    return {name: kind for name, kind in KINDS.items() if kind.since <= version}


def header_of(kind: str) -> str:
    """The first line of a kind of list."""
    return {**KINDS, **OWN_KINDS}[kind].header


def cause(words: list[str], kind: str) -> Meaning:
    """What a record was refused for: the words of the answer after the record's number."""
    if words[0] in CAUSES:
        return CAUSES[words[0]].translated()
    number = int(words[1])
    if words[0] == "refusal":
        if number in REFUSALS:
            return REFUSALS[number].translated()
        return Meaning(_("The office refuses this line (refusal {number}).", number=number), _("Look it up in the guide."))
    texts = FIELDS.get(kind, ())
    columns = KINDS[kind].header.split(",") if kind in KINDS else []
    says = (_("The field {name} is not well written.", name=columns[number - 1]) if number <= len(columns) else
            _("Field {number} is not well written.", number=number))
    return Meaning(says, _(texts[number - 1]) if number <= len(texts) else _("Correct it."))


def done(text: str) -> str:
    """What an accepted line did, by its answer."""
    words = text.split() or ["ok"]
    number = words[1] if len(words) > 1 else ""
    if words[0] == "shut" and "displaced" in words:
        return _("The room is out of use, and {person} has lost it.", person=words[-1])
    if words[0] == "chosen" and number:
        return _("The list is on record: {rooms}.", rooms=" ".join(words[1:]))
    if words[0] == "added" and number.isdigit():
        return ngettext("The list is in, with {count} line.", "The list is in, with {count} lines.", int(number))
    if words[0] == "settled" and number.isdigit():
        return ngettext("The round is settled, with {count} move.", "The round is settled, with {count} moves.", int(number))
    texts = {
        "ok": N_("Done."),
        "shut": N_("The room is out of use."),
        "round": N_("Round {number} is open."),
        "chosen": N_("The list is on record: an empty list."),
        "withdrawn": N_("The person has withdrawn from the round."),
        "going": N_("The person leaves the college at the end of the round."),
        "cancelled": N_("The round is given up."),
        "closed": N_("The round is closed, with {number} participants."),
        "drawn": N_("The order of {number} participants is drawn."),
        "ran": N_("The rooms are given to {number} participants."),
        "published": N_("The results of {number} participants are published."),
    }
    return _(texts[words[0]], number=number) if words[0] in texts else text.strip()


def not_done(made: int, text: str, status: int) -> str:
    """What a clerk reads of lines of which the office has carried out so many, and not the next one, which has this answer. If the
    file, the disk or the memory failed, that one may have been carried out, too: `meaning` says to look."""
    why, failed = meaning(text), status == UNAVAILABLE
    if made and failed:
        return _("Only a part of this was carried out. {why}", why=why)
    if made:
        return _("Only a part of this was carried out, since the office was changed meanwhile. Then it was refused: {why} Look "
                 "before you go on.", why=why)
    return str(why) if failed else _("Nothing was changed. {why}", why=why)


def meaning(text: str) -> Meaning:
    """What an answer of the program says; of a record of a list, what is wrong with it, and of a step, how far the round is."""
    words = text.split()
    if words[:2] == ["refused", "15"]:
        return cause(words[4:], "")
    said = meaning_of(text)
    if words[:2] == ["refused", "1"] and words[3] in PHASES:
        return said._replace(says=f"{said.says} {_(PHASES[words[3]].title)}.")
    return said

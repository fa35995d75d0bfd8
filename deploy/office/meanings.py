"""What an answer of the program says, and what a clerk can do about it: once for all who say it, the keeper and the page."""

from typing import NamedTuple

from house_places import here
from languages import N_, _


class Meaning(NamedTuple):
    """What an answer says, and what to do."""

    says: str
    to_do: str

    def __str__(self) -> str:
        return f"{self.says} {self.to_do}".strip()

    def translated(self) -> "Meaning":
        """In the language that is spoken, with the name of the keeper's unit where the text has its place."""
        return Meaning(_(self.says), _(self.to_do).replace("{keeper}", here().keeper_units[1].removesuffix(".service")))


# By the number of a refusal.
REFUSALS = {
    1: Meaning(N_("The round is not where this step belongs."), N_("Open the overview to see what comes next.")),
    2: Meaning(N_("No person has this identifier."), N_("Look the person up on the page People.")),
    3: Meaning(N_("No room has this code."), N_("Look at the page Rooms, or add the room first.")),
    4: Meaning(N_("This room is in the register already."), N_("Take the line out of the list.")),
    5: Meaning(N_("This person is in the register already."),
               N_("Take the line out, or give the other person another identifier.")),
    6: Meaning(N_("Another person has this key."),
               N_("Give this person a key of their own, or leave the field empty to get a new one.")),
    7: Meaning(N_("This room is out of use."), N_("Bring it back on the page Rooms, or write another room.")),
    8: Meaning(N_("Another person lives in this room."), N_("Look up the room on the page Rooms to see who.")),
    9: Meaning(N_("This person has a room already."), N_("First let the person leave it.")),
    10: Meaning(N_("This person has no room."), N_("There is nothing to leave.")),
    11: Meaning(N_("This person has withdrawn from the round."), N_("Take the line out of the list.")),
    12: Meaning(N_("The number of words is not the number of participants."), N_("Draw again.")),
    13: Meaning(N_("A limit is reached: 2,000 rooms, 2,000 people, 9,999 rounds, 200 lists, or 262,144 bytes in a list."),
                N_("Split a long list in two.")),
    14: Meaning(N_("Another list was imported under this label, or the list was blanked since."), N_("Choose another label.")),
    16: Meaning(N_("This person takes no part in the round."), N_("Choose a participant.")),
    17: Meaning(N_("This round is not over, or there was no such round."), N_("Choose a round that is settled.")),
    18: Meaning(N_("This room is in use."), N_("There is nothing to bring back.")),
    21: Meaning(N_("The file is not an office's file any more: another program than this one has changed it, or it is damaged. "
                   "What the page shows may be wrong."),
                N_("Change nothing, and call the administrator. Going back to a copy from before the damage (page Copies) makes "
                   "the office good again; lists that came after the copy are lost then.")),
    22: Meaning(N_("The office's file has another version than the program, as after an upgrade."),
                N_("Call the administrator, who brings the file to the version of the program.")),
    24: Meaning(N_("This person leaves the college at the end of the round."), N_("Take the line out of the list.")),
    25: Meaning(N_("No list has come in under this label."), N_("The page Lists in has the labels.")),
}
# What to do if it is refused by itself, and not as a line of a list.
ALONE = {
    4: N_("Look at the page Rooms. If it is another room, write another code."),
    5: N_("Look the person up on the page People. If this is somebody else, write another identifier."),
    6: N_("Choose another key."),
    11: N_("If that was a mistake, press Undo on the page of this person."),
    24: N_("If that is a mistake, press Undo on the page of this person."),
}
# What failed where the program could not read or write, or the keeper for it.
FAILED = Meaning(N_("The file, the disk or the memory failed."),
                 N_("Look whether the change was made. If it was not, try again; if it fails again, call the administrator."))
NOT_UNDERSTOOD = Meaning(N_("The program does not understand this."), N_("Check capital letters, signs and spaces."))


def meaning_of(text: str) -> Meaning:
    """What an answer of the program to a single line says; the answer itself if it is no refusal."""
    words = text.split()
    if not words or words[0] == "unavailable":
        return FAILED.translated()
    if text.startswith(("not understood", "rooms: not")):
        return NOT_UNDERSTOOD.translated()
    if words[0] != "refused":
        return Meaning(text.strip(), "")
    number = int(words[1])
    says, to_do = REFUSALS.get(number, Meaning(text.strip(), N_("Look it up in the guide."))).translated()
    to_do = _(ALONE[number]) if number in ALONE else to_do
    return Meaning(says + (f" ({' '.join(words[3:])})" if number in (3, 7, 12) else ""), to_do)


def failed(why: object, reached: bool) -> str:
    """What a clerk reads of something that failed, and why. `reached` is whether it may have taken effect in the office's file."""
    return (_("the file, the disk or the memory failed ({why}). Look whether this took effect.", why=why) if reached else
            _("the file, the disk or the memory failed ({why}).", why=why))

"""New keys that the keeper was asked for and has not answered: which of them work. The page still has them, so their slips are not
lost."""

import time

from languages import _
from lines import ACCEPTED

from app import ask, tell, tell_fault
from keeper_client import KeeperFault, Unsure, answers_of

PATIENCE = 15.0  # seconds until a keeper that ended has to be back; the proxy waits longer for the page
ASKING = 5.0     # seconds for each question


def working(keys: dict[str, str]) -> list[str] | None:
    """Who has the new key by now; nothing if the keeper does not come back. The program names the owner of a key. It makes keys one
    after the other, and answers up to the first that nobody has."""
    end = time.monotonic() + PATIENCE
    while True:
        try:
            answers = answers_of(ask("try", patience=ASKING, lines=[f"me {key}" for key in keys.values()]))
            return [person for person, answer in zip(keys, answers) if answer.status == ACCEPTED]
        except KeeperFault:
            if time.monotonic() > end:
                return None
        time.sleep(0.2)


def after(fault: KeeperFault, keys: dict[str, str]) -> list[str]:
    """Tells the clerk what has become of new keys after a fault, and gives those people who have theirs."""
    made = working(keys) if isinstance(fault, Unsure) and fault.is_over else None
    if made is None:
        tell_fault(fault)
        if isinstance(fault, Unsure):
            tell("bad", _("New keys may have been made for these people: {people}. Then their old keys do not work, and nobody has "
                          "the new ones. The journal says whether that was done. If it was, or nobody knows, make new keys for "
                          "them once more.", people=", ".join(keys)))
        return []
    if len(made) == len(keys):
        tell("bad", _("This step was broken off. The page has looked since: the new keys were made, and their slips are here."))
    elif made:
        tell("bad", _("This step was broken off. The page has looked since: new keys were made for the first {people} of {count} "
                      "people, and their slips are here. The form behind the slips has the others, whose old keys work.",
                      people=len(made), count=len(keys)))
    else:
        tell("bad", _("This step was broken off. The page has looked since: no new key was made, and the old keys work."))
    return made

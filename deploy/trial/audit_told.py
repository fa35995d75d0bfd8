"""Whether the office's page knows each sentence of the independent audit, and says all of it in the clerk's language.

Wrong results are drawn, and what the audit says of them is read in a language in which each text is between two marks. No
program is needed. This run alone: /usr/bin/python3 deploy/trial/audit_told.py
"""

import random
import sys
from unittest import mock

# The repository stays as it is.
sys.dont_write_bytecode = True

# pylint: disable=wrong-import-position,wrong-import-order  # nothing may be written before, and some are in these folders
from stand import OFFICE, check

sys.path[1:1] = [str(OFFICE / "page"), str(OFFICE)]

import audit_words  # type: ignore[import]  # pylint: disable=import-error  # it is in the folder of the page
import explaining  # type: ignore[import]  # pylint: disable=import-error  # as above
from audit import Audit
from made_up_language import between, outside

ROUNDS = 2000
AWAY = 0.1    # how often a room is shut, and somebody has withdrawn
LOST = 0.02   # how often a word or a result is missing


def drawn(chance):
    """A small round with results that are drawn, too."""
    rooms = [f"R-{number}" for number in range(chance.randint(2, 7))]
    people = [f"P{number}" for number in range(chance.randint(2, 6))]
    homes = dict(zip(people, chance.sample(rooms, chance.randint(0, min(len(rooms), len(people))))))
    return {
        "rooms": [(room, chance.random() < AWAY and room not in homes.values()) for room in rooms],
        "people": [(person, person, homes.get(person), chance.random() < AWAY) for person in people],
        "choices": {person: chance.sample(rooms, chance.randint(0, len(rooms))) for person in people},
        "words": [(person, f"{chance.getrandbits(64):016x}") for person in people if chance.random() > LOST],
        "results": [(person, chance.choice([*rooms, None])) for person in people if chance.random() > LOST],
    }


def try_chain():
    """P0 got the room of P1, who got a vacant one: P2 reads of an exchange, and of none between these two."""
    rooms = ["R-0", "R-1", "R-2"]
    found = explaining.Explainer(Audit({
        "rooms": [(room, False) for room in rooms],
        "people": [("P0", "", "R-0", False), ("P1", "", "R-1", False), ("P2", "", None, False)],
        "choices": {"P0": ["R-1"], "P1": ["R-2"], "P2": ["R-1"]},
        "words": [(f"P{place}", f"{place:016x}") for place in range(3)],
        "results": [("P0", "R-1"), ("P1", "R-2"), ("P2", None)]})).facts_of("P2").gone
    check("a letter says that who lived there got another room", [explaining.to_a_resident(one) for one in found] == [
        "R-1, your choice 1, went to the resident at place 1, in an exchange in which the resident who lived there got another "
        "room."], found)
    check("and the office reads which", [explaining.to_whom(one) for one in found] == [
        "R-1, choice 1, went in step 1 to P0, at place 1, in an exchange in which P1, who lived there, got R-2."], found)


def try_audit_told():
    """The audit reports what it finds in drawn rounds in English as it is, and in another language whole."""
    try_chain()
    chance = random.Random(2027)
    found = [fault for _ in range(ROUNDS) for fault in Audit(drawn(chance)).faults()]
    used = []

    def in_marks(text, **values):
        used.append(text)
        return between(text.format(**values))
    changed = [fault for fault in found if audit_words.told(fault) != fault]
    check(f"{len(found)} findings of the audit are told in English as they are", found and not changed, changed[:3])
    with mock.patch.object(audit_words, "_", in_marks):
        partly = [told for told in map(audit_words.told, found) if outside(told)]
    check("and in another language whole", not partly, partly[:3])
    forms = {*audit_words.SENTENCES, *audit_words.HOW, *audit_words.LINKS, *audit_words.GAINS}
    check(f"{len(forms)} forms of sentences are all that there are", forms == set(used), forms ^ set(used))


if __name__ == "__main__":
    if len(sys.argv) != 1:
        sys.exit("usage: /usr/bin/python3 deploy/trial/audit_told.py")
    try_audit_told()

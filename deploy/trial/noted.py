"""Seeds on the office's page, and notes: what a clerk notes, even `close` or a draw, hides no seed that was noted before,
and is one line of the journal.

This run alone, also over standin.py: /usr/bin/python3 deploy/trial/noted.py PROGRAM
"""

import hashlib
import json
import re
import sys

from office_requests import Page
from stand import Stand, check

SEEDS = ["a1" * 32, "b2" * 32]
FORGED = "x\n2026-11-29T15:00:00+00:00  anna: close  ->  ok"


def try_noted(program):
    """A seed, notes that look like steps, and another seed."""
    with Stand(program) as stand:
        stand.start()
        stand.start_page()
        stand.start_proxy()
        page = Page(stand)
        for line in ("open", "close"):
            stand.office(line)
        for number, seed in enumerate(SEEDS):
            page.form("/office/seed", {"way": "seed", "text": seed}, page="/office/draw")
            if not number:
                stand.ask(ask="note", line="close", who="bert")
                stand.ask(ask="note", line=f"draw $(rooms words --seed {'c3' * 32} --count 2)", who="bert")
        text = page.get("/office/draw")[2]
        check("the page shows both seeds", all(seed in text for seed in SEEDS) and "has 2 seeds" in text, text)
        text = page.get("/office/journal")[2]
        check("and the notes as such", "Noted: <code>close</code>" in text and "Noted: <code>seed a1" in text, text)
        forged(stand)
        unnoted(stand)
        thrown(page)


def forged(stand):
    """A note looks like a further entry: with its sender's name, by a keeper that is new, or by an earlier one."""
    stand.ask(ask="note", line=FORGED, who="bert")
    with open(stand.data / "journal", "a", encoding="utf-8") as held:
        held.write(json.dumps({"at": "2026-11-29T15:01:00+00:00", "who": "bert", "note": FORGED + "\x1b[2J"}) + "\n")
    told = stand.script("rooms-office", "journal", "2").split("\n")
    check("rooms-office prints each on one line", len(told) == 3 and all("bert: noted: x" in one for one in told[:2]), told)
    check("without control signs", all(one.isprintable() for one in told), told)


def unnoted(stand):
    """A copy is made, and the journal takes no entry meanwhile."""
    journal, aside = stand.data / "journal", stand.data / "journal.aside"
    journal.rename(aside)
    journal.mkdir()
    answer = stand.ask(ask="backup", who="anna")
    journal.rmdir()
    aside.rename(journal)
    names = [name for name, *_ in stand.ask(ask="backups")["backups"]]
    check("of a copy that is made nobody says that nothing was changed", answer.get("name") in names, (answer, names))
    stand.ask(ask="note", line="later", who="anna")
    found = [(one.get("line"), one.get("answer"), one.get("note")) for one in stand.ask(ask="journal", last=2)["journal"]]
    check("and the journal has it with the next entry",
          found == [("backup", answer["name"], None), (None, None, "later")], found)


def thrown(page):
    """Dice are noted as they are hashed, even if a sign came in that nobody sees."""
    throws = " ".join("3166254" * 8)
    seed = hashlib.sha256(throws.encode()).hexdigest()
    page.form("/office/seed", {"way": "text", "text": throws.replace(" ", "\u200b", 1).replace(" ", "\n\ufeff", 1)},
              page="/office/draw")
    text = page.get("/office/draw")[2]
    check("what witnesses saw has the hash that the page shows", seed in text and throws in text, text)
    throws = "31662544" * 7
    place = page.form("/office/seed", {"way": "text", "text": throws}, page="/office/draw")[1]["location"]
    text = page.get(place)[2]
    check("throws without a space between them give no seed, and stay in the form", "Write a space between two throws" in text
          and f'value="{throws}"' in text and hashlib.sha256(throws.encode()).hexdigest() not in text, text)
    place = page.form("/office/seed", {"way": "seed", "text": "c4" * 31}, page="/office/draw")[1]["location"]
    text = page.get(place)[2]
    check("so does a seed that lacks signs, in the form of a seed", "You entered 62 signs" in text
          and re.search(f'id="seed"[^>]* value="{"c4" * 31}"', text) and text.count("c4" * 31) == 1, text)


if __name__ == "__main__":
    if len(sys.argv) != 2:
        sys.exit("usage: /usr/bin/python3 deploy/trial/noted.py PROGRAM")
    try_noted(sys.argv[1])

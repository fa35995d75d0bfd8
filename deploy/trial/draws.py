"""The draw on the office's page, and what the public record says of it: /usr/bin/python3 deploy/trial/draws.py PROGRAM.

Throws are counted, and too few are asked about. A seed that was noted by mistake is struck out, and stays. The record
names each round that was given up, each draw, and each way back, so that nobody can draw until the order pleases.
"""

import hashlib
import json
import random
import re
import sys
from pathlib import Path

# The repository stays as it is.
sys.dont_write_bytecode = True

# pylint: disable=wrong-import-position,wrong-import-order  # nothing may be written before
from office_requests import Page
from stand import OFFICE, Stand, check

sys.path.append(str(OFFICE))

from audit import seed_words

FEW, ENOUGH = "3 1 6 6 2", " ".join(random.Random(1).choices("123456", k=50))
LOTTERY = "the lottery of 1 June: 4 17 23 31 40 49"
SEED = "ab" * 32


def sha256(text):
    """The seed of a text."""
    return hashlib.sha256(text.encode()).hexdigest()


def enter(page, text):
    """Enters a text on the page of the draw. The address of the question, or of the page itself."""
    return page.form("/office/seed", {"way": "text", "text": text}, page="/office/draw")[1]["location"]


def notes(stand):
    """What was noted, the last one last."""
    return [entry["note"] for entry in stand.ask(ask="journal", last=1000)["journal"] if "note" in entry]


def try_throws(stand, page):
    """Fifty throws are taken as they are; fewer, and what is no throws, are asked about."""
    for text, says in ((FEW, "You entered 5 throws"), ("3 3 3 3", "Enter 8 to 400 signs"), (LOTTERY, "no throws of a die"),
                       (ENOUGH[:-2], "You entered 49 throws")):
        before = notes(stand)
        where = enter(page, text)
        shown = page.get(re.sub("^https?://[^/]*", "", where))[2]
        check(f"{text[:30]!r} is asked about", says in shown and notes(stand) == before, shown[-1500:])
        back = re.findall('href="(/office/draw/[0-9a-f]{32})"', shown)
        check("and is still there after a no", "Enter" in says or f'value="{text}"' in page.get(back[0])[2], shown[-1500:])
    where = re.sub("^https?://[^/]*", "", enter(page, LOTTERY))
    page.form(where, page=where)
    check("a yes notes it", notes(stand)[-1] == f"seed {sha256(LOTTERY)} SHA-256 of {LOTTERY}", notes(stand))
    page.form(where, page="/office/draw")
    check("once", len(notes(stand)) == 1 and "no longer holds this" in page.get("/office/draw")[2], notes(stand))
    bert = Page(stand, "bert")
    where = re.sub("^https?://[^/]*", "", enter(page, FEW))
    bert.form(where, page="/office/draw")
    check("nobody else says yes to it", len(notes(stand)) == 1, notes(stand))
    for text in (ENOUGH, ENOUGH.replace(" ", ","), " ".join(re.findall(".{5}", ENOUGH.replace(" ", "")))):
        where = enter(page, text)
        check("fifty throws need no yes", where.endswith("/office/draw") and sha256(text) in notes(stand)[-1], where)
    text = page.get("/office/draw")[2]
    check("the page shows how many throws there were", text.count("(50 throws)") == 3 and "(5 throws)" not in text, text)


def try_strike(stand, page):
    """A seed is struck out after a yes, and nothing is drawn with it; it stays."""
    page.form("/office/seed", {"way": "seed", "text": SEED}, page="/office/draw")
    where = page.form("/office/seed/strike", {"seed": SEED}, page="/office/draw")[1]["location"]
    where = re.sub("^https?://[^/]*", "", where)
    check("striking a seed out is asked about", "Strike this seed out?" in page.get(where)[2], where)
    page.form(where, page=where)
    text = page.get("/office/draw")[2]
    check("the seed stays, marked", re.search(r"Struck out</strong> [-0-9 :]+ [A-Z]+ by anna", text) and "1 of them struck" in text,
          text)
    check("nothing is offered with it", f'value="{SEED}"' not in text, text)
    page.form("/office/draw", {"seed": SEED}, page="/office/draw")
    check("nor drawn, even if asked for", stand.ask(ask="view")["phase"] == "closed" and
          "was struck out" in page.get("/office/draw")[2])
    page.form("/office/seed/strike", {"seed": SEED}, page="/office/draw")
    check("it is struck out once", "no such seed" in page.get("/office/draw")[2])


def until_drawn(stand, page, seed):
    """A round from its opening to its draw."""
    stand.office("open")
    stand.office("close")
    page.form("/office/seed", {"way": "seed", "text": seed}, page="/office/draw")
    page.form("/office/draw", {"seed": seed}, page="/office/draw")


def said_by(page):
    """What the record says of the journal, without the times."""
    record = page.form("/office/record", page="/office/record")[2]
    return [re.sub("^[-0-9]{10} [0-9:]{8} [^ ]+ ", "", line) for line in re.findall("^# journal: (.*)$", record, re.M)], record


def try_record(stand, page):
    """The record of the round in which a seed was struck out, of rounds after others, and of a round drawn twice."""
    stand.office("draw " + " ".join(f"{number:016x}" for number in (2, 1)))
    stand.office("run")
    said, record = said_by(page)
    check("the record has each seed, with what it was made of",
          f"the seed {sha256(ENOUGH)} was noted: SHA-256 of {ENOUGH}" in said, said)
    check("marks the one that was struck out, and says that the draw was by words", said[-3:] == [
        f"the seed {SEED} was noted: entered as it is", f"the seed {SEED} was struck out",
        "the order of round 1 was drawn, by words"], said)
    check("in their order", said[:2] == ["round 1 was opened", "round 1 was closed"], said)
    stand.office("cancel")
    stand.office("open")
    stand.office("cancel")
    until_drawn(stand, page, SEED)
    stand.office("cancel")
    until_drawn(stand, page, "cd" * 32)
    copy = next(name for name, _, why in reversed(stand.ask(ask="backups")["backups"]) if "before draw" in why)
    stand.script("rooms-office", "back", copy)
    page.form("/office/draw", {"seed": "cd" * 32}, page="/office/draw")
    stand.office("run")
    said, record = said_by(page)
    for text in ("round 1 was given up after the rooms were given: its order was drawn",
                 "round 2 was given up while it was open: no order was drawn",
                 f"the order of round 3 was drawn, by the seed {SEED}",
                 "round 3 was given up after the order was drawn: its order was drawn"):
        check(f"the record says: {text}", said.count(text) == 1, said)
    check("and that the office went back, and drew again", said[-1] == "the order of round 4 was drawn 2 times" and
          [line[:29] for line in said[-4:-1]] == ["the order of round 4 was draw", "the office went back to the c",
                                                  "the order of round 4 was draw"], said)
    names = [*(row[1] for row in stand.ask(ask="view")["people"]), "anna", "bert"]
    check("it names nobody", not any(name in record for name in names), record)
    stand.office("publish")
    stand.office("settle")


def try_later(stand, page):
    """The next year begins anew; a bundle of lines hides no draw; and a journal that is lost is missed."""
    stand.office("open")
    lines = [f"choose {person} A-1" for person in ("P1", "P2") for _ in range(30)]
    words = " ".join(seed_words(SEED, 2))
    stand.script("rooms-office", "lines", given="\n".join([*lines, "close", f"draw {words}", "run"]) + "\n")
    said, record = said_by(page)
    check("the record begins after the last round that was settled, and a bundle hides nothing",
          said == ["round 5 was opened", "round 5 was closed", "the order of round 5 was drawn, by words"], said)
    check("of words by hand that are those of a noted seed the record has the seed", f"\n# seed {SEED}\n" in record, record)
    line = next(found for entry in stand.ask(ask="journal", last=5)["journal"] if (found := entry.get("line", ""))[:6] == "choose")
    check("the journal keeps the first lines of a bundle", line.startswith("choose P1 (1 room); ") and
          line.endswith("; ..; close; draw (2 words); run"), line)
    journal = (stand.data / "journal").read_text(encoding="utf-8").splitlines()
    kept = [line for line in journal if json.loads(line).get("line") != "settle"][-2:]
    (stand.data / "journal").write_text("\n".join(kept) + "\n", encoding="utf-8")
    said, _ = said_by(page)
    check("what is not in the journal is missed",
          {f"it does not say what became of round {number}" for number in (1, 2, 3)} <= {*said}, said)


def try_other_round(stand, page):
    """A form, and a question, of a round that was given up since note nothing in the next one."""
    for line in ("cancel", "open", "close"):
        stand.office(line)
    form = {**page.hidden("/office/draw"), "way": "seed", "text": SEED}
    where = re.sub("^https?://[^/]*", "", enter(page, FEW))
    asked = page.hidden(where, where)
    for line in ("cancel", "open", "close"):
        stand.office(line)
    before = notes(stand)
    for place, sent in (("/office/seed", form), (where, asked)):
        led = re.sub("^https?://[^/]*", "", page.post(place, sent)[1]["location"])
        text = page.get(led)[2]
        check(f"{place[:12]} of a round that was given up notes nothing", notes(stand) == before
              and "The office has gone on" in text, (notes(stand), text))
    check("and what was entered is still there", f'value="{FEW}"' in text, text)


def try_draws(program):
    """All of it."""
    with Stand(program) as stand:
        stand.fill(["A-1", "A-2", "A-3"], ["P1", "P2"])
        stand.start()
        stand.start_page()
        stand.start_proxy()
        page = Page(stand)
        stand.office("open")
        stand.office("close")
        try_throws(stand, page)
        try_strike(stand, page)
        try_record(stand, page)
        try_later(stand, page)
        try_other_round(stand, page)
        check("the page has noted no fault of its own", "rooms-page:" not in stand.log("page"), stand.log("page"))


if __name__ == "__main__":
    if len(sys.argv) != 2 or not Path(sys.argv[1]).exists():
        sys.exit("usage: /usr/bin/python3 deploy/trial/draws.py PROGRAM")
    try_draws(sys.argv[1])

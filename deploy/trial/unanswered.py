"""Steps and ways back to which the keeper has noted no answer, since it was killed: what the draw page offers afterwards, and what
the public record says: /usr/bin/python3 deploy/trial/unanswered.py PROGRAM.

A kill right after the first line of a change leaves that line alone. A kill right before the second one leaves an office in which
the change took effect. Both are made here by the journal's file, between two runs of the keeper. Further journals are made up.
"""

import json
import random
import re
import sys
from pathlib import Path

# The repository stays as it is.
sys.dont_write_bytecode = True

# pylint: disable=wrong-import-position,wrong-import-order  # nothing may be written before
from branching import Told, name
from draws import said_by, until_drawn
from office_requests import Page
from stand import OFFICE, Stand, check

sys.path.append(str(OFFICE))

from branches import Branches
from entries import DONE, NOT_DONE, UNKNOWN, merged
from happened import Happened
from phases import FROM, LAST_STEPS, TO
from history import history
from journal import EARLIER, NOT_KNOWN
from lines import BY_SEED
from seeds import noted_seeds

SEEDS = [digit * 64 for digit in "123456789"]
DRAW = f"{BY_SEED} {SEEDS[0]} --count 2)"
KILLED = {"status": 3, "answer": NOT_KNOWN}


# --- an office

def killed_before(stand, line):
    """The keeper was killed right after it had noted that this change begins, with the copy before it."""
    copy = stand.ask(ask="backup")["name"]
    entry = {"at": stand.ask(ask="journal", last=1)["journal"][-1]["at"], "n": f"killed-{copy}", "who": "anna", "line": line,
             "copy": copy}
    rewrite(stand, lambda text: text + json.dumps(entry) + "\n")


def killed_after(stand, *lines):
    """The keeper was killed right before it noted the answer to the last of these lines, which took effect."""
    for line in lines:
        stand.office(line)
    rewrite(stand, lambda text: text[:text.rindex("\n", 0, -1) + 1])


def rewrite(stand, change):
    """Changes the journal while no keeper runs, and says that the last change has no answer."""
    journal = stand.data / "journal"
    stand.stop_keeper()
    journal.write_text(change(journal.read_text(encoding="utf-8")), encoding="utf-8")
    stand.start()
    answer = stand.ask(ask="journal", last=1)["journal"][-1].get("answer")
    check("the journal does not know the answer", answer == NOT_KNOWN, answer)


def has_none(stand, page, what):
    """In the round that is closed the page has no seed, and draws with none of an earlier round."""
    shown = page.get("/office/draw")[2]
    check(f"{what} the draw page has no seed", 'class="seed">' not in shown, shown)
    page.form("/office/draw", {"seed": SEEDS[0]}, page="/office/draw")
    check("and draws with none of an earlier round", stand.ask(ask="view")["phase"] == "closed")


def copy_before(stand, step):
    """The last copy that was kept before such a step."""
    return next(one for one, _, why in reversed(stand.ask(ask="backups")["backups"]) if f"before {step}" in why)


def try_way_back(stand, page):
    """A way back to an earlier round's copy was not made."""
    until_drawn(stand, page, SEEDS[0])
    copy = copy_before(stand, "close")
    for line in ("run", "publish", "settle", "open"):
        stand.office(line)
    killed_before(stand, f"back {copy}")
    check("the office has not gone back", stand.ask(ask="view")["number"] == 2)
    stand.office("close")
    has_none(stand, page, "after a way back that was not made")
    try_unknown(stand, page, copy)
    page.form("/office/seed", {"way": "seed", "text": SEEDS[1]}, page="/office/draw")
    page.form("/office/draw", {"seed": SEEDS[1]}, page="/office/draw")
    stand.office("run")
    said, _ = said_by(page)
    check("the record has this round alone", said == ["round 2 was opened", "round 2 was closed",
          f"the seed {SEEDS[1]} was noted: entered as it is", f"the order of round 2 was drawn, by the seed {SEEDS[1]}"], said)


def try_unknown(stand, page, copy):
    """If neither the journal nor a copy has the number of the copy's round, nothing is drawn with a seed of that round."""
    journal, kept = stand.data / "journal", stand.data / "backups" / copy
    text = journal.read_text(encoding="utf-8")
    journal.write_text(re.sub('"answer": "round [12] open"', '"answer": "ok"', text), encoding="utf-8")
    kept.rename(stand.folder / copy)
    shown = page.get("/office/draw")[2]
    check("where nobody knows, the page shows the seed, says so, and offers no draw with it",
          shown.count("Nobody knows whether it was noted in this round") == 1 and f'value="{SEEDS[0]}"' not in shown, shown)
    page.form("/office/draw", {"seed": SEEDS[0]}, page="/office/draw")
    check("nor draws with it", stand.ask(ask="view")["phase"] == "closed")
    page.form("/office/seed", {"way": "seed", "text": SEEDS[0]}, page="/office/draw")
    shown = page.get("/office/draw")[2]
    check("but with one that is entered now", shown.count(f'value="{SEEDS[0]}"') == 2, shown)
    (stand.folder / copy).rename(kept)
    journal.write_text(text, encoding="utf-8")


def try_ends(stand, page):
    """A round was settled, and one given up, and the keeper noted neither."""
    for step, lines in (("settle", ("publish", "settle")), ("cancel", ("cancel",))):
        killed_after(stand, *lines)
        for line in ("open", "close"):
            stand.office(line)
        has_none(stand, page, f"after a `{step}` that took effect")
        page.form("/office/seed", {"way": "seed", "text": SEEDS[2]}, page="/office/draw")
    page.form("/office/draw", {"seed": SEEDS[2]}, page="/office/draw")
    stand.office("run")
    said, _ = said_by(page)
    check("the record begins after the round that was settled, and has how the other one ended", said[0] == "round 3 was opened"
          and "round 3 was given up after it was closed: no order was drawn" in said
          and not any("nobody knows" in one or "does not say" in one for one in said), said)


def try_draws(stand, page):
    """A draw was not made: the round was drawn once, or given up without an order."""
    stand.office("cancel")
    for line in ("open", "close"):
        stand.office(line)
    killed_before(stand, DRAW)
    stand.office("cancel")
    for line in ("open", "close"):
        stand.office(line)
    killed_before(stand, DRAW)
    page.form("/office/seed", {"way": "seed", "text": SEEDS[4]}, page="/office/draw")
    page.form("/office/draw", {"seed": SEEDS[4]}, page="/office/draw")
    stand.office("run")
    said, _ = said_by(page)
    check("a round whose draw was not made was given up without an order",
          "round 5 was given up after it was closed: no order was drawn" in said, said)
    check("and of the other one the record has one draw", said[-1] == f"the order of round 6 was drawn, by the seed {SEEDS[4]}"
          and not any(SEEDS[0] in one or "2 times" in one for one in said), said)


# --- journals that are made up

def opened(**answers):
    """A round that is opened, closed and drawn, with a copy before each step. Some answers are others."""
    told = Told()
    for second, step in enumerate(("open", "close", DRAW)):
        given = answers.get(step.split()[0], {"answer": "round 1 open" if step == "open" else "ok"})
        told.change(second, step, name(second), **given)
    return told


def said_of(told, now, settled=(), **copies):
    """What the record says, without times."""
    said = history(told.entries, True, now, list(settled), copies.get)
    return [re.sub("^[-0-9]{10} [0-9:]{8} [^ ]+ ", "", one) for one in said]


def sums():
    """What the record says of draws of which nobody knows."""
    told = opened().change(3, f"back {name(2)}", name(3), **KILLED).change(4, DRAW, name(4), **KILLED).change(5, "run", name(5))
    said = said_of(told, (1, "ran"))
    check("a sum says what is known, and names what is not",
          said[-1] == "the order of round 1 was drawn once, and nobody knows of one more"
          and len([one for one in said if one.endswith("(nobody knows whether this took effect)")]) == 2, said)
    for answer in (NOT_KNOWN, EARLIER, "fault: the program did not end"):
        told = opened(draw={"status": 3, "answer": answer}).change(3, "cancel", name(3)).change(4, "open", answer="round 2 open")
        said = said_of(told, (2, "open"))
        check(f"if nothing says whether an order was drawn, the record does not say it ({answer[:9]})",
              "round 1 was given up: nobody knows whether its order was drawn" in said, said)
        for phase, end in (("closed", " after it was closed: no order was drawn"),
                           ("drawn", " after the order was drawn: its order was drawn")):
            said = history(told.entries, True, (2, "open"), [], {name(3): (1, phase)}.get)
            check(f"the copy before it was given up says that it was {phase}", said[-3].endswith(f"round 1 was given up{end}"),
                  said)
    told = opened(draw=KILLED).change(3, DRAW.replace("1", "2"), name(3), **KILLED).change(4, "run", name(4))
    said = said_of(told, (1, "ran"))
    check("of two draws one was made", said[-1] == "it does not say by which of 2 draws the order of round 1 came about", said)


def noted(second, seed):
    """The note of a seed."""
    return {"at": f"2026-11-30T13:00:{second:02}+01:00", "who": "anna", "note": f"seed {seed} dice"}


def around():
    """Seeds of an earlier round, to which the office may have gone back, and of this one, from before it was closed and after."""
    told = Told()
    for second, step in enumerate(("open", "close", DRAW, "run", "publish", "settle", "open")):
        told.change(second, step, name(second))
        told.entries += [noted(second, SEEDS[1])] if step == "close" else []
    told.change(7, f"back {name(1)}", name(7), **KILLED).entries.append(noted(7, SEEDS[2]))
    told.change(8, "close", name(8)).entries.append(noted(8, SEEDS[3]))
    for found, early, unsure in ((None, [], [SEEDS[1], SEEDS[2]]), ({name(1): (1, "open")}.get, [SEEDS[2]], [])):
        seeds = noted_seeds(told.entries, True, (2, "closed"), found).found
        seen = [[one.seed for one in seeds if getattr(one, part)] for part in ("early", "unsure", "counts")]
        check(f"with{'' if found else 'out'} the copy's number the seeds are told apart: early, not known, to draw with",
              seen == [early, unsure, [SEEDS[3]]], seen)


def asked_for():
    """A round is closed between a copy that was asked for and its entry. The office that goes back to the copy is open again."""
    told = Told().change(0, "open", name(0), answer="round 2").change(2, "close", name(2, "-02")).asked(2, name(2))
    told.change(3, f"back {name(2)}", name(3)).change(4, "close", name(4)).entries.append(noted(5, SEEDS[1]))
    happened = Happened(merged(told.entries), (2, "closed"))
    check("nothing is missing between a copy that was asked for and the way back to it", not happened.gaps, happened.gaps)
    found = noted_seeds(told.entries, True, (2, "closed")).found
    check("and the seed of the round can be drawn with", [one.counts for one in found] == [True], found)


def removed():
    """Who was removed since a round was settled of which the keeper noted no answer."""
    told = Told().change(0, "remove W", name(0)).change(1, "publish", name(1)).change(2, "settle", name(2), **KILLED)
    told.change(3, "remove X", name(3))
    for now, gone in (((1, "idle"), {"X"}), ((1, "published"), set())):
        found = Branches(told.entries).removed_since_settled(now)
        check(f"if the round is {now[1]} now, {gone or 'nobody'} was removed since one was settled", found == gone, found)


def by_hand():
    """What is not in the journal proves nothing of it."""
    told = opened(draw=KILLED)
    for second in (3, 4):
        told.change(second, "close", name(second))  # somebody has opened rounds by hand
    said = said_of(told, (9, "closed"))
    check("if a step fits nothing of before, that says nothing of it", f"the order of round 1 was drawn, by the seed {SEEDS[0]} "
          "(nobody knows whether this took effect)" in said, said)
    told.entries.insert(0, {**noted(0, SEEDS[2]), "at": "2026-11-30T12:00:00+01:00"})
    told.entries.append(noted(5, SEEDS[3]))
    found = {one.seed: one.counts for one in noted_seeds(told.entries, True, (9, "closed")).found}
    check("and the seed that was noted last is offered alone", found == {SEEDS[2]: False, SEEDS[3]: True}, found)


class Chance:  # pylint: disable=too-many-instance-attributes  # an office, and what is true of it
    """An office that does this and that by chance, and whose keeper is killed now and then: each round has a number of its own."""

    def __init__(self, seed):
        self.chance, self.told, self.second, self.rounds = random.Random(seed), Told(), 0, 0
        self.now = (0, "idle", 0)    # the number, the phase, and the round's own number
        self.copies, self.made = {}, []
        self.closed, self.seeds = set(), {}
        for _ in range(seed % 40 + 3):
            self.second += 1
            (self.note if self.chance.random() < 0.3 else self.act)()

    def note(self):
        """A seed is noted: in which round, and whether that was closed by then."""
        seed = f"{self.second:064x}"
        self.seeds[seed] = (self.now[2], self.now[2] in self.closed)
        self.told.entries.append(noted(self.second, seed))

    def act(self):
        """A step, or a way back."""
        number, phase, own = self.now
        if self.copies and self.chance.random() < 0.15:
            copy = self.chance.choice(sorted(self.copies))
            line, after = f"back {copy}", self.copies[copy]
        else:
            line = self.chance.choice([step for step in TO if phase in FROM[step]])
            self.rounds += line in LAST_STEPS
            after = (number + (line == "open"), TO[line], self.rounds if line in LAST_STEPS else own)
        killed = self.chance.random() < 0.2
        done = not killed or self.chance.random() < 0.5
        answer = KILLED if killed else {"answer": f"round {after[0]} open" if line == "open" else "ok"}
        self.told.change(self.second, line, name(self.second), **answer)
        self.copies[name(self.second)] = self.now
        self.made.append(done)
        if done:
            self.closed |= {own} if line == "close" else set()
            self.now = after

    def faults(self, kept):
        """What is said wrongly of a step or of a seed, and of how many steps without an answer nothing is said. Of the copies, this
        part of them is still there."""
        rounds = {copy: found[:2] for copy, found in self.copies.items() if self.chance.random() < kept}
        happened = Happened(merged(self.told.entries), self.now[:2], rounds.get)
        wrong: list[object] = [step for step, outcome, made in zip(happened.steps, happened.outcomes, self.made, strict=True)
                               if outcome not in (UNKNOWN, DONE if made else NOT_DONE)]
        found = {one.seed: one for one in noted_seeds(self.told.entries, True, self.now[:2], rounds.get).found}
        for seed, (own, closed) in self.seeds.items():
            one, is_now = found.get(seed), own == self.now[2]
            if is_now if one is None else not one.unsure and (not is_now or own in self.closed and one.early == closed):
                wrong.append((seed, is_now, closed, one))
        return wrong, happened.outcomes.count(UNKNOWN)


def by_chance():
    """Many histories by chance: of nothing it is said that it was done and was not, or was not and was."""
    for kept in (0, 0.5, 1):
        found = [Chance(seed).faults(kept) for seed in range(300)]
        wrong = [fault for faults, _ in found for fault in faults]
        check(f"with {kept:.0%} of the copies nothing false is said, and nobody knows of {sum(count for _, count in found)} steps",
              not wrong, wrong[:3])


def try_unanswered(program):
    """All of it."""
    sums()
    around()
    asked_for()
    removed()
    by_hand()
    by_chance()
    with Stand(program) as stand:
        stand.fill(["A-1", "A-2", "A-3"], ["P1", "P2"])
        stand.start()
        stand.start_page()
        stand.start_proxy()
        page = Page(stand)
        try_way_back(stand, page)
        try_ends(stand, page)
        try_draws(stand, page)
        check("the page has noted no fault of its own", "rooms-page:" not in stand.log("page"), stand.log("page"))


if __name__ == "__main__":
    if len(sys.argv) != 2 or not Path(sys.argv[1]).exists():
        sys.exit("usage: /usr/bin/python3 deploy/trial/unanswered.py PROGRAM")
    try_unanswered(sys.argv[1])

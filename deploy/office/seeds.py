"""The seeds in the journal: all that were noted in the round of now.

Nothing that a clerk notes afterwards can hide one: what the keeper has done has a number in the journal, `n`, and what
somebody has noted has none. Nor can going back to a copy: it brings back the round of that time, with its seeds.
"""

import re
import shlex
from typing import NamedTuple

import times
from entries import DONE, UNKNOWN, Entry, merged
from happened import Happened, Known, RoundOf
from lines import BY_SEED, SEED

NOTED = re.compile(rf"seed ({SEED.pattern})\b ?(.*)", re.DOTALL)
DRAWN = re.compile(rf"{re.escape(BY_SEED)} ({SEED.pattern})")
OF_TEXT = "SHA-256 of "
STRUCK = "struck out"  # what is noted of a seed that was noted by mistake
UNEXPLAINED = "without a word on how it came about"


class Noted(NamedTuple):
    """A seed: when it was noted, by whom, how it came about, the line that works it out again from a text, whether it was
    noted before the round was closed, when lists could still change, whether nobody knows if it was noted in this round, after it
    was closed, and when it was struck out, and by whom."""

    at: str
    who: str
    seed: str
    source: str
    check: str
    early: bool = False
    unsure: bool = False
    struck: str = ""
    struck_by: str = ""

    @property
    def counts(self) -> bool:
        """Whether it may be drawn with."""
        return not self.early and not self.unsure and not self.struck


class Seeds(NamedTuple):
    """The seeds that were noted in the round of now, the first one first; the seed of the draw, or None if nobody knows by which
    of several it was drawn; and the time before which the journal could not be read, if this round may have begun before it."""

    found: list[Noted]
    drawn: str | None
    since: str


def noted_in(entry: Entry) -> Noted | None:
    """The seed that somebody has noted, or struck out: that is its source then."""
    match = NOTED.fullmatch(str(entry.get("note", entry.get("line", ""))))
    if match is None or "n" in entry:
        return None
    source = match[2] or UNEXPLAINED
    text = source.removeprefix(OF_TEXT)
    check = f"printf %s {shlex.quote(text)} | sha256sum" if text != source else ""
    return Noted(times.of_entry(entry["at"]), entry.get("who", ""), match[1].lower(), source, check)


def noted_seeds(journal: list[Entry], whole: bool, now: Known | None = None, round_of: RoundOf | None = None) -> Seeds:
    """The seeds in the journal. If it is not `whole`, it has lost its beginning. By the round of now and those of kept copies it is
    known what happened (happened.py)."""
    rows = merged(journal)
    happened = Happened(rows, now, round_of)
    noted = [told_of(one, happened, happened.index(place)) for place, entry in enumerate(rows) if (one := noted_in(entry))]
    begun = min(one.since for one in happened.before[-1])
    since = "" if whole or begun else times.of_entry(rows[0]["at"])
    return Seeds(with_struck([one for one in noted if one]), drawn_by(happened), since)


def drawn_by(happened: Happened) -> str | None:
    """The seed of the draw; an empty text if it was drawn by words, or not at all, and None if nobody knows."""
    found, sure = set[str](), happened.of_now("draw", surely=True)
    for index in happened.of_now("draw"):
        seed = DRAWN.match(happened.steps[index].line)
        found = {seed[1].lower() if seed else "", *(found if index not in sure else [])}
    return None if len(found) > 1 else next(iter(found), "")


def told_of(noted: Noted, happened: Happened, index: int) -> Noted | None:
    """A seed that was noted after so many steps, with what is known of its round; nothing if that is another one than now."""
    of_now = happened.is_of_now(index)
    if of_now is not DONE:
        return noted._replace(unsure=True) if of_now is UNKNOWN else None
    first, surely = (next(iter(happened.of_now("close", sure)), None) for sure in (False, True))
    early = first is not None and index <= first
    return noted._replace(early=early, unsure=not early and first is not None and (surely is None or index <= surely))


def with_struck(noted: list[Noted]) -> list[Noted]:
    """The seeds that were noted, with who has struck one out afterwards. One may be noted once more after that."""
    found: list[Noted] = []
    for one in noted:
        if one.source != STRUCK:
            found.append(one)
            continue
        found = [other._replace(struck=one.at, struck_by=one.who) if other.seed == one.seed and not other.struck else other
                 for other in found]
    return found

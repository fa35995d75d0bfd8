"""The office's lines and the program's answers: how their words are written, which lines only read, before which the office is
copied, and which may show a key."""

import re
from typing import Any

# What may be a key: identifiers have at most 12 signs, and codes 8. In capitals it may be a key too that was typed so.
LIKE_A_KEY = re.compile(r"[A-Za-z0-9]{16,}")
IDENTIFIER = re.compile(r"[A-Z0-9]{1,12}")
CODE = re.compile(r"[A-Z0-9][A-Z0-9-]{0,7}")  # of a room
DRAWN = re.compile(r"[A-Fa-f0-9]{16}")  # a word of a draw
LABEL = re.compile(r"[a-z0-9][a-z0-9-]{0,31}")  # of a list that comes in
SEED = re.compile(r"[0-9A-Fa-f]{64}")    # of a draw
BY_SEED = "draw $(rooms words --seed"    # a draw by a seed, as the journal has it: the seed comes behind it

LONGEST_LIST = 262_144  # bytes: the program takes no longer list
MOST_CHOICES = 40  # rooms on the list of one person
# The program's statuses; after those of NOT_TAKEN nothing was changed, and would not be if it was asked again.
ACCEPTED, REFUSED, NOT_UNDERSTOOD, UNAVAILABLE = range(4)
NOT_TAKEN = (REFUSED, NOT_UNDERSTOOD)

# What only reads is asked of a copy. Every other line may change the office.
READS = frozenset({"rooms", "people", "round", "order", "results", "moves", "whatif", "me"})

# The office is copied before these lines, which no other line takes back. Before `choose` it is if that replaces a list. Before
# `blank` nothing is copied, unless it comes with other lines: a copy would keep what it erases.
COPIED = frozenset({"close", "cancel", "draw", "run", "publish", "settle", "shut", "withdraw", "going", "leave", "remove", "name",
                    "key"})
NAME_BEGINS = {"person": 3, "name": 2}  # with which word, counted from 0, the name of a person begins in a line
BUNDLE = "lines"  # the kind of the copies that are made before several lines at once


def on_one_line(text: str) -> str:
    """A text with a space in the place of each sign that a terminal obeys or that ends a line."""
    return "".join(sign if sign.isprintable() else " " for sign in text)


def verb_of(line: str) -> str:
    """The first word of a line."""
    return (line.split() or [""])[0]


def only_reads(lines: list[str]) -> bool:
    """Whether none of these lines can change the office."""
    return all(verb_of(line) in READS for line in lines)


def erases(lines: list[str]) -> bool:
    """Whether nothing of what these lines overwrite may stay in the office's file."""
    return "blank" in map(verb_of, lines)


def named(lines: list[str], verb: str) -> set[str]:
    """Whom or what the lines with this verb name."""
    return {words[1] for words in map(str.split, lines) if words[:1] == [verb] and len(words) > 1}


def lines_to_remove(person: str, home: str | None) -> list[str]:
    """The lines that remove a person: who has a room leaves it first."""
    return [*([f"leave {person}"] if home else []), f"remove {person}"]


def gone_by(lines: list[str]) -> set[str]:
    """Who is out of the register after these lines, which were accepted."""
    gone: set[str] = set()
    for line in lines:
        gone = (gone | named([line], "remove")) - named([line], "person")
    return gone


def shows_a_key(line: str) -> bool:
    """Whether a line that takes no key has a word that may be one, as `persn ID KEY NAME`.

    The program understands no such line. Only the words of a draw look like keys.
    """
    words = line.split()
    if words[:1] == ["draw"]:
        words = [word for word in words if not DRAWN.fullmatch(word)]
    return any(map(LIKE_A_KEY.search, words))


def name_shows_a_key(name: str) -> bool:
    """Whether a name has a word that may be a key. Long words of letters alone are names."""
    return any(re.search("[0-9]", found) for found in LIKE_A_KEY.findall(name))


def has_name_like_a_key(line: str) -> bool:
    """Whether a line has a person's name with a word that may be a key: the program does not get it."""
    begins = NAME_BEGINS.get(verb_of(line))
    return begins is not None and name_shows_a_key(" ".join(line.split()[begins:]))


def is_copied_before(lines: list[str], choices: dict[str, Any]) -> bool:
    """Whether the office is copied before these lines. `choices` has the lists that people have handed in."""
    if len(lines) > 1 and any(verb_of(line) != "blank" for line in lines):
        return True
    words = lines[0].split() if lines else []
    return words[:1] == ["choose"] and len(words) > 1 and words[1] in choices or bool(lines) and verb_of(lines[0]) in COPIED

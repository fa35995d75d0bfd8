"""The journal: who changed what, when, and with what answer. It never has a key, nor the name of a person or what somebody
wishes for, unless a clerk writes it into a note.

Each entry is a line of JSON, and on the disk before the keeper goes on. A change has two: one before it begins,
with `n`, `at`, `who` and `line` (and `copy`, if the office was copied first), and one after it has ended, with
the same `n`, `answer`, `status` and `ms`. If some of several lines took effect, and not all, the second entry has these under
`line`, and the line that did not is a change of its own. If the copy was deleted again, since the office took nothing of the
change, the second entry has an empty `copy`. If it took nothing, and the status leaves that open, `taken` is false there. What a
clerk notes is under `note`, so it is never taken for a change.
"""

import contextlib
import itertools
import json
import os
import re
import threading
import time
from collections.abc import Iterator
from pathlib import Path
from typing import Any

from languages import N_, in_english
from lines import BY_SEED, LIKE_A_KEY, SEED, on_one_line, verb_of
from phases import STEPS
from placing import part_of, replace_file
from settings import Fault, unwritten
from times import now

# What the program answers to a line that changes the office, and to `whatif`. Other answers, as to `people` or `me`, may have
# names.
WITHOUT_NAMES = re.compile(
    r"ok|not understood|unavailable|withdrawn|going|cancelled|(?:refused|round|chosen|shut|added|closed|drawn|ran|published"
    r"|settled|would get)\b.*")
# The journal has these texts in English. The office's page shows them in the clerk's language.
NOT_NOTED = N_("(an answer that is not noted)")
CUT_OFF = N_("(an entry that was cut off)")
NOT_KNOWN = N_("not known: the keeper ended before it had noted the answer. Look whether the line took effect.")
# As versions up to 3.1.0 wrote it.
EARLIER = N_("not known: the keeper was ended meanwhile. Look whether the line took effect.")
OWN_TEXTS = (NOT_NOTED, CUT_OFF, NOT_KNOWN, EARLIER)
KEY = N_("(key)")  # in the place of what may be a key
# What stands in the place of all that these lines say of a person behind the identifier.
HIDDEN = {"person": f"{KEY} (name)", "name": "(name)", "key": KEY}
# A person's list, in a line or in its answer, and the number of its rooms in its place.
WISHES = re.compile(r"(choose \S+|chosen)((?: (?!\()\S+)*)")
COUNTED = re.compile(rb"\(\d+ rooms?\)")
OWN = ("fault: ", "not known: ")  # the keeper's own answers begin so
NOTED_SEED = re.compile(rf"seed {SEED.pattern}\b")
SEEDS = re.compile(rf"^(?:seed|{re.escape(BY_SEED)}) ({SEED.pattern})\b")
TAIL = 4 << 20   # bytes: so much of the end of the journal is read
ANSWER = 300     # signs of an answer that are kept
NOTE = 600       # signs of a note that are kept: a seed, and up to 400 of what the witnesses saw
SPOKEN = 400     # signs of several lines that are kept as they are
LONGEST = 50_000  # and of what is kept of them at most: 2,000 people, by their identifiers
KEPT = STEPS | {"withdraw", "going", "leave", "remove", "forget"}  # lines that are kept, however many there are


def masked(text: str, key: str = KEY) -> str:
    """A text without anything that may be a key, with a word in its place."""
    return LIKE_A_KEY.sub(key, text)


def without_wishes(line: str) -> str:
    """A line, or its answer, with the number of rooms in the place of somebody's list: a list is deleted after the round."""
    found = WISHES.fullmatch(line)
    if not found:
        return line
    count = len(found[2].split())
    return f"{found[1]} ({count} room{'' if count == 1 else 's'})"


def masked_line(line: str) -> str:
    """A line as the journal has it: of a person's name and key nothing, since a name would outlive `remove` here."""
    words = line.split()
    if words[:1] == ["draw"]:
        return f"draw ({len(words) - 1} words)"
    if words[:1] and words[0] in HIDDEN:
        return masked(" ".join([*words[:2], HIDDEN[words[0]]]))
    return masked(without_wishes(" ".join(words)))


def spoken_of(lines: list[str]) -> str:
    """Lines as the journal has them. Of many it has the first ones, and among the others those of KEPT: so no draw is hidden
    there, and it is known to whom an identifier may belong no more."""
    whole = "; ".join(map(masked_line, lines))
    if len(whole) > SPOKEN and len(lines) > 1:
        first = whole[:SPOKEN].rpartition("; ")[0]
        others = lines[first.count("; ") + 1 if first else 0:]
        kept = [masked_line(line) for line in others if verb_of(line) in KEPT]
        whole = "; ".join([*filter(None, [first]), *([".."] if len(kept) < len(others) else []), *kept])
    return whole if len(whole) <= LONGEST else f"{whole[:LONGEST]} .."


def masked_note(text: str) -> str:
    """A note as the journal has it: on one line, so that no part of it looks like an entry of its own. It has a seed as
    it is: a seed is public. No note fills the journal."""
    text = on_one_line(text)
    seed = NOTED_SEED.match(text)
    return (seed[0] + masked(text[seed.end():]) if seed else masked(text))[:NOTE]


def without_names(answer: str) -> str:
    """An answer as the journal has it."""
    if answer.startswith(OWN):
        return masked(answer)[:ANSWER].strip()
    first = answer.strip().partition("\n")[0]
    return masked(without_wishes(first))[:ANSWER] if WITHOUT_NAMES.fullmatch(first) else NOT_NOTED


def blanked(line: bytes) -> bytes:
    """A line of the journal, without an answer that may have a name, and without wishes. One that is cut off may end with a
    part of that."""
    try:
        entry = json.loads(line)
    except ValueError:
        entry = {"line": CUT_OFF}
    if isinstance(entry, dict) and "n" in entry and "answer" in entry:
        entry["answer"] = without_names(str(entry["answer"]))
    if isinstance(entry, dict) and "n" in entry and "line" in entry:
        entry["line"] = "; ".join(map(without_wishes, str(entry["line"]).split("; ")))
    return json.dumps(entry, ensure_ascii=False).encode("utf-8", "replace")


def is_rid_of(before: bytes, after: bytes) -> bool:
    """Whether a line of the journal was rid of an answer or of wishes."""
    return before != after and (NOT_NOTED.encode() in after or len(COUNTED.findall(after)) > len(COUNTED.findall(before)))


class Journal:
    """The journal's file."""

    def __init__(self, path: Path) -> None:
        self.path, self.lock = path, threading.Lock()
        self.numbers = itertools.count(1)
        self.late: list[dict[str, Any]] = []  # ends of changes that could not be written down yet

    def note(self, **values: Any) -> None:
        """Adds an entry, which is on the disk afterwards. If that fails, the journal is as it was."""
        with self.lock:
            self.add([*self.late, {"at": now(), **values}])
            self.late.clear()

    def write_late(self) -> None:
        """Writes down the ends that could not be written down yet, if that is possible now: before the keeper ends."""
        with self.lock, contextlib.suppress(Fault, OSError):
            if self.late:
                self.add(self.late)
                self.late.clear()

    def add(self, entries: list[dict[str, Any]]) -> None:
        """Adds entries, all or none."""
        text = "".join(json.dumps(entry, ensure_ascii=False) + "\n" for entry in entries)
        held = os.open(self.path, os.O_RDWR | os.O_APPEND | os.O_CREAT | os.O_CLOEXEC, 0o600)
        try:
            size = os.fstat(held).st_size
            if size and os.pread(held, 1, size - 1) != b"\n":  # the last entry was cut off, as by a power cut
                text = "\n" + text
            left = text.encode("utf-8", "replace")
            try:
                while left:
                    left = left[os.write(held, left):]
                os.fsync(held)
            except OSError as fault:
                with contextlib.suppress(OSError):
                    os.ftruncate(held, size)
                raise unwritten(N_("the journal"), fault) from fault
        finally:
            os.close(held)

    def number(self) -> str:
        """The number of another change."""
        return f"{time.time():.0f}-{os.getpid()}-{next(self.numbers)}"

    def begin(self, who: str, line: str, copy: str | None = None) -> str:
        """Notes that a change begins, and gives its number."""
        number = self.number()
        self.note(n=number, who=who, line=line, **({"copy": copy} if copy else {}))
        return number

    def end(self, number: str, answer: str, status: int, milliseconds: int, **other: Any) -> None:
        """Notes how a change ended, and what else is so of it than was noted before."""
        self.note_done(n=number, **other, answer=without_names(answer), status=status, ms=milliseconds)

    def note_done(self, **values: Any) -> None:
        """Notes what has happened: if it cannot be noted now, it is noted with the next entry."""
        try:
            self.note(**values)
        except (Fault, OSError):
            self.late.append({"at": now(), **values})

    @contextlib.contextmanager
    def change(self, who: str, line: str, copy: str | None = None) -> Iterator[None]:
        """Notes a change that the block makes, with the copy before it: before the change, and how it ended. If the first cannot
        be noted, nothing is changed."""
        number = self.begin(who, line, copy)
        try:
            yield
        except Exception as fault:
            self.end(number, f"fault: {in_english(fault)}", 3, 0)
            raise
        self.end(number, "ok", 0, 0)

    def entries(self, whole: bool = False) -> Iterator[dict[str, Any]]:
        """The entries at the end of the journal, or of all of it, and the ends that could not be written down yet. An entry that is
        cut off is skipped."""
        with self.lock:
            late = list(self.late)
        try:
            with open(self.path, "rb") as held:
                held.seek(0 if whole else max(0, os.fstat(held.fileno()).st_size - TAIL))
                text = held.read().decode("utf-8", "replace")
        except FileNotFoundError:
            return
        for line in text.split("\n"):
            with contextlib.suppress(ValueError):
                entry = json.loads(line)
                if isinstance(entry, dict):
                    yield entry
        yield from late

    def is_whole(self) -> bool:
        """Whether the entries are all of the journal, and not only its end."""
        return not self.path.exists() or self.path.stat().st_size <= TAIL

    def seeds(self) -> list[str]:
        """The seeds that were noted or drawn by, the last one first."""
        found = [SEEDS.search(str(entry.get("note", entry.get("line", "")))) for entry in self.entries()]
        return [seed[1].lower() for seed in reversed(found) if seed]

    def blank(self) -> int:
        """Takes answers that may have names, and wishes, out of the whole journal, and gives the number of such lines. Versions
        up to 3.1.0 noted the answer of the last of several lines, even if that line asked for names, and each `choose`."""
        with self.lock:
            old = [line for line in self.path.read_bytes().split(b"\n") if line] if self.path.exists() else []
            new = [blanked(line) for line in old]
            try:
                replace_file(self.path, b"".join(line + b"\n" for line in new))
            except OSError as fault:
                raise unwritten(N_("the journal"), fault) from fault
            return sum(map(is_rid_of, old, new))

    def end_unfinished(self) -> None:
        """Notes of each change of which an earlier keeper has noted no answer that this is not known."""
        part_of(self.path).unlink(missing_ok=True)
        entries = list(self.entries())
        ended = {entry["n"] for entry in entries if "n" in entry and "answer" in entry}
        for entry in entries:
            if "n" in entry and "line" in entry and entry["n"] not in ended:
                with contextlib.suppress(Fault, OSError):
                    self.note(n=entry["n"], status=3, answer=NOT_KNOWN)

"""Runs the program `rooms`, and gives its answers.

Every account of the machine can read the command lines of all processes. So lines go to the program's standard input
(line_run.py), and no word that may be a key is a word of a command line, but for the seed of a draw.
"""

import os
import sqlite3
import subprocess
import tempfile
import time
from collections.abc import Callable
from pathlib import Path
from typing import NamedTuple

from languages import _
from line_run import Ended, LineRun, is_skipped, status_of
from lines import ACCEPTED, SEED, UNAVAILABLE, has_name_like_a_key, shows_a_key
from settings import Fault, NotKnown, Settings

FURTHER, MOST = 0.02, 2_000  # seconds for each further line of a bundle, and for how many of them at most
PATIENCE = 5.0               # seconds until a program by hand has to have closed the office's file
AGAIN = 0.05                 # seconds after which the program tries again whether it has


class Answer(NamedTuple):
    """What the program printed, and its status."""

    text: str
    status: int


class NotOpened(Answer):
    """What the program printed that never had the file: nothing took effect."""


NOT_UNDERSTOOD = Answer("not understood\n", 2)
EARLIER = ("refused 22 OtherVersion 1", "refused 22 OtherVersion 2")  # of files that it can migrate


class Unanswered(Fault):
    """The program gave no answer to a line. `answers` has those to the lines before it."""

    def __init__(self, why: str, answers: list[Answer], unknown: bool) -> None:
        super().__init__(why)
        self.answers, self.unknown = answers, unknown


def is_refused(answers: list[Answer]) -> bool:
    """Whether the last of these answers is not that of an accepted line."""
    return not answers or answers[-1].status != ACCEPTED


def is_of_earlier_version(answer: Answer) -> bool:
    """Whether the program says that a file is an office's of an earlier version, which it can migrate."""
    return answer.text.partition("\n")[0] in EARLIER


def late(seconds: float) -> str:
    """What a clerk reads about a program that took longer than it may."""
    return _("the program did not end within {seconds:g} seconds, and was ended.", seconds=seconds)


def bound(*words: str) -> list[str]:
    """A command line that ends with the thread that starts it. If the keeper was killed before the system knew that,
    the shell has another parent, and does nothing."""
    return ["setpriv", "--pdeathsig", "KILL", "sh", "-c", '[ "$PPID" = "$0" ] && exec "$@"', str(os.getpid()), *words]


def is_taken(line: str) -> bool:
    """Whether the program may get a line: it is one line of UTF-8, and no name in it may be a key."""
    try:
        line.encode("utf-8", "surrogateescape")
    except UnicodeEncodeError:
        return False
    return "\n" not in line and not has_name_like_a_key(line)


class Program:
    """The program, as the keeper runs it."""

    def __init__(self, settings: Settings) -> None:
        self.settings = settings

    def serve_words(self) -> list[str]:
        """The command line of the server."""
        return bound(self.settings.program, "serve", "--db", str(self.settings.file), "--port", str(self.settings.port),
                     "--count", str(self.settings.connections))

    def run(self, *words: str) -> Answer:
        """Runs the program to its end. It ends with the keeper, and when its time is over."""
        line = bound(self.settings.program, *words)
        limit = self.settings.line_seconds
        try:
            done = subprocess.run(line, stdin=subprocess.DEVNULL, capture_output=True, timeout=limit, check=False)
        except subprocess.TimeoutExpired as fault:
            raise NotKnown(_("{why} Look whether the line took effect.", why=late(limit))) from fault
        return Answer((done.stdout + done.stderr).decode("utf-8", "replace"), done.returncode)

    def tell(self, line: str, file: Path) -> Answer:
        """Has a file answer one line."""
        return self.tell_all([line], file)[0]

    def tell_all(self, lines: list[str], file: Path, look: Callable[[str, Path], None] | None = None) -> list[Answer]:
        """Has a file answer lines, up to the first that is not accepted. The program opens the file once, and each line that it
        has answered stands. Before each line `look` is called, while the program has the file."""
        run, opened = self.opened(file, len(lines))
        answers: list[Answer] = [] if opened.status == ACCEPTED else [NotOpened(*opened)]
        try:
            for line in [] if answers else lines:
                if look:
                    look(line, file)
                answers.append(self.answer_to(line, run))
                if is_refused(answers):
                    break
        except Ended as fault:
            run.close()
            raise self.unanswered(run, file, answers, len(lines)) from fault
        except (Fault, OSError, sqlite3.Error) as fault:  # of `look`
            if file != self.settings.file:
                raise
            why = _("{why} {made} of {count} lines were carried out before.", why=fault, made=len(answers), count=len(lines))
            raise Unanswered(why, answers, unknown=bool(answers)) from fault
        finally:
            run.close()
        if run.said and is_refused(answers):
            answers[-1] = answers[-1]._replace(text=answers[-1].text + run.said)
        return answers

    def opened(self, file: Path, count: int) -> tuple[LineRun, Answer]:
        """A run for so many lines, and the answer to a `round`: whether the program has the file. It waits for another program
        that has the office's file, as by hand."""
        seconds, end = self.settings.line_seconds + FURTHER * (min(count, MOST) - 1), time.monotonic() + PATIENCE
        while True:
            run = LineRun(bound(self.settings.program, "lines", "--db", str(file)), seconds, self.settings.scratch)
            try:
                opened = self.answer_to("round", run)
            except Ended as fault:
                run.close()
                raise self.unanswered(run, file, [], count) from fault
            if opened.status != UNAVAILABLE or file != self.settings.file or time.monotonic() > end:
                return run, opened
            run.close()
            time.sleep(AGAIN)

    @staticmethod
    def answer_to(line: str, run: LineRun) -> Answer:
        """The answer to a line. The program has none for one that it skips."""
        if not is_taken(line):
            return NOT_UNDERSTOOD
        text = "" if is_skipped(line) else run.ask(line)
        return Answer(text, status_of(text))

    def unanswered(self, run: LineRun, file: Path, answers: list[Answer], count: int) -> Unanswered:
        """The fault of a run that has ended before it answered so many lines. A copy is thrown away then."""
        if run.is_late:
            why = late(run.seconds)
        else:
            why = _("the program ended before it had answered ({said}).", said=run.said.strip() or run.process.returncode)
        unknown = file == self.settings.file and run.handed > 1
        if not unknown:
            why = _("{why} Nothing was changed.", why=why)
        elif count == 1:
            why = _("{why} Look whether the line took effect.", why=why)
        else:
            why = _("{why} {made} of {count} lines were carried out before. Look whether the next one took effect, too.",
                    why=why, made=len(answers), count=count)
        return Unanswered(why, answers, unknown)

    def bring_in(self, kind: str, label: str, body: bytes, file: Path) -> Answer:
        """Imports a list. The program reads it from a file in memory, which is gone afterwards."""
        if shows_a_key(f"import {kind} {label}"):
            raise Fault(_("a kind or a label with 16 letters and digits in a row may be a key, so nothing was done. Put a "
                          "hyphen into the label."))
        with tempfile.NamedTemporaryFile(dir=self.settings.scratch) as held:
            held.write(body)
            held.flush()
            return self.run("import", "--db", str(file), "--", kind, label, held.name)

    def export(self, kind: str, file: Path) -> Answer:
        """An export, as CSV."""
        return NOT_UNDERSTOOD if shows_a_key(kind) else self.run("export", "--db", str(file), "--", kind)

    def words(self, seed: str, count: int) -> list[str]:
        """The words of a seed."""
        if not SEED.fullmatch(seed):
            raise Fault(_("a seed has 64 signs out of 0 to 9 and a to f"))
        text, status = self.run("words", f"--seed={seed}", f"--count={count}")
        if status != ACCEPTED:
            raise Fault(_("the program gave no words: {said}", said=text.strip()))
        return text.split()

    def migrate(self, file: Path) -> Answer:
        """Brings an office of an earlier version to that of the program."""
        return self.run("migrate", "--db", str(file))

    def look(self, file: Path) -> Answer:
        """Whether the program takes a file as an office: it reads all of it, and says how far the round is."""
        return self.tell("round", file)

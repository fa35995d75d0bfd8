"""Kills `rooms lines` at drawn moments while the lines of a script go through it, and looks at what the file holds afterwards.

`rooms do` carries out the lines first, one by one, which gives each answer and the rows of the office after each line. What a
killed run has written must be a beginning of these answers. Its file has to be intact, and to hold the office after as many lines
as it had begun to answer, or after more of them.
"""

import random
import subprocess
import sys
import tempfile
import time
from collections import Counter
from pathlib import Path

from faults import content_of, copy_office, kept_words, opened

SEED = 1999


class Year:
    """The lines of a script, the answer to each, and the rows of the office before the first line and after each."""

    def __init__(self, program, folder, script):
        self.program, self.begin, self.victim = program, folder / "begin.db", folder / "victim.db"
        self.lines = [" ".join(words) for words in kept_words(script)]
        self.answers: list[str] = []
        subprocess.run([program, "new", "--db", self.begin], check=True, stdout=subprocess.DEVNULL)
        office = folder / "office.db"
        copy_office(self.begin, office)
        self.rows = [content_of(office)]
        for line in self.lines:
            words = [program, "do", "--db", office, *line.split()]
            self.answers.append(subprocess.run(words, stdout=subprocess.PIPE, text=True, check=False).stdout)
            self.rows.append(content_of(office))

    def run(self, seconds):
        """What a run of all lines on a new office has written when it is killed after so many seconds, and how long it ran."""
        copy_office(self.begin, self.victim)
        words = [self.program, "lines", "--db", self.victim]
        began = time.monotonic()
        with subprocess.Popen(words, stdin=subprocess.PIPE, stdout=subprocess.PIPE, text=True) as process:
            try:
                came = process.communicate("".join(f"{line}\n" for line in self.lines), seconds)[0]
            except subprocess.TimeoutExpired:
                process.kill()
                came = process.communicate()[0]
        return came, time.monotonic() - began

    def begun(self, came):
        """Of how many lines a byte of the answer came."""
        if not "".join(self.answers).startswith(came):
            sys.exit(f"another answer: {came}")
        count = 0
        while sum(map(len, self.answers[:count])) < len(came):
            count += 1
        return count

    def carried_out(self, least):
        """How many lines are in the file, of those that leave the same rows the first that is not below `least`."""
        with opened(self.victim) as database:
            if database.execute("PRAGMA integrity_check").fetchall() != [("ok",)]:
                sys.exit("the file is not intact")
        rows = content_of(self.victim)
        for count in range(least, len(self.rows)):
            if self.rows[count] == rows:
                return count
        return sys.exit(f"a line is missing, or the file holds no office of the year: {least} lines were answered")


def main(program, times, script):
    """Kills so many runs, and prints what was seen."""
    draws, seen = random.Random(SEED), Counter[str]()
    with tempfile.TemporaryDirectory() as name:
        year = Year(program, Path(name), Path(script))
        came, took = year.run(None)
        if came != "".join(year.answers):
            sys.exit("a run of all lines answers otherwise than the lines one by one")
        for _ in range(int(times)):
            begun = year.begun(year.run(draws.uniform(0, took))[0])
            kept = year.carried_out(begun)
            seen["answered none" if not begun else "answered some" if begun < len(year.lines) else "answered all"] += 1
            seen["kept a line that was not answered"] += kept > begun
    told = ", ".join(f"{what} {count}" for what, count in sorted(seen.items()))
    print(f"killed: {times} runs of {len(year.lines)} lines: {told}")


if __name__ == "__main__":
    main(*sys.argv[1:])

"""Lets `rooms do` and `rooms import` fail while they work on a file, and looks at what the file holds afterwards.

Runs each line of some scripts on copies of an office's file; each of these runs meets a fault at a drawn place:

- `kill`: it is killed (SIGKILL) after a drawn part of the time that the line takes;
- `limit`: its files may not grow past a drawn size, so that a write is refused, or kills it if the signal is not ignored;
- `full`: it works on a small disk in memory of which a drawn part is left free (this mounts a tmpfs, which root alone may).

Then the file is opened again, and nothing fails: `sqlite3` has to find it intact, and what the program says of it has to be
the office before the line or the one after it, and the one after it if the line's whole answer had come. The script goes on
with a copy that met no fault. A line `import KIND LABEL PATH` brings a list. The rows of its tables are read by Python's own
`sqlite3` each time. The last line has the sum of the runs that met a fault.
"""

import random
import resource
import shutil
import signal
import sqlite3
import subprocess
import sys
import tempfile
import time
from collections import Counter
from contextlib import closing, contextmanager
from dataclasses import dataclass
from pathlib import Path

ASKED = ("rooms", "people", "round", "order", "results", "moves 1", "moves 2", "me key00000000000t1", "whatif T1 V")
ENDS = ("", "-wal")
PAGE = 4096
DISK = 4 << 20


def kept_words(path):
    """The lines of a script that are requests, each as its words."""
    lines = (line.strip() for line in path.read_text(encoding="utf-8").splitlines())
    return [line.split() for line in lines if line and not line.startswith("#")]


def copy_office(source, target):
    """A copy of an office: its file and the log next to it."""
    for end in ENDS:
        old, new = Path(f"{source}{end}"), Path(f"{target}{end}")
        new.unlink(missing_ok=True)
        if old.exists():
            shutil.copyfile(old, new)


@contextmanager
def opened(office):
    """A copy of the office's file and its log, opened by SQLite itself."""
    with tempfile.TemporaryDirectory() as folder:
        copy = Path(folder) / "copy.db"
        copy_office(office, copy)
        with closing(sqlite3.connect(copy)) as database:
            yield database


def content_of(office):
    """All rows of all tables."""
    with opened(office) as database:
        return list(database.iterdump())


def bytes_of(office):
    """How many bytes the longer of an office's file and log has."""
    return max((path.stat().st_size for end in ENDS if (path := Path(f"{office}{end}")).exists()), default=0)


class Killed:  # pylint: disable=too-few-public-methods  # a fault has one call
    """A run is killed after a drawn time."""

    def __init__(self, folder, draws):
        self.victim, self.draws = folder / "victim.db", draws

    def meet(self, words, took, _):
        """What came out of a run that met the fault."""
        with subprocess.Popen(words, stdout=subprocess.PIPE, text=True) as run:
            time.sleep(self.draws.uniform(0, took * 1.1))
            run.kill()
            return run.communicate()[0]


class Limited:  # pylint: disable=too-few-public-methods  # a fault has one call
    """The files of a run may not grow past a drawn size."""

    def __init__(self, folder, draws):
        self.victim, self.draws = folder / "victim.db", draws

    def meet(self, words, _, longest):
        """What came out of a run that met the fault."""
        most, kills = self.draws.randrange(longest + PAGE), self.draws.random() < 0.5

        def prepare():
            signal.signal(signal.SIGXFSZ, signal.SIG_DFL if kills else signal.SIG_IGN)
            resource.setrlimit(resource.RLIMIT_FSIZE, (most, most))

        done = subprocess.run(words, stdout=subprocess.PIPE, text=True, check=False, preexec_fn=prepare)
        return done.stdout


class Full:  # pylint: disable=too-few-public-methods  # a fault has one call
    """A run works on a disk of which a drawn part is left free."""

    def __init__(self, folder, draws):
        self.disk, self.draws = folder / "disk", draws
        self.victim = self.disk / "victim.db"

    def meet(self, words, _, longest):
        """What came out of a run that met the fault."""
        ballast = self.disk / "ballast"
        free = shutil.disk_usage(self.disk).free
        left = self.draws.randrange(longest // PAGE + 2) * PAGE
        ballast.write_bytes(bytes(max(0, free - left)))
        try:
            done = subprocess.run(words, stdout=subprocess.PIPE, text=True, check=False)
        finally:
            ballast.unlink()
        return done.stdout


@contextmanager
def small_disk(folder):
    """A small disk in memory, gone at the end."""
    disk = folder / "disk"
    disk.mkdir()
    subprocess.run(["mount", "-t", "tmpfs", "-o", f"size={DISK}", "tmpfs", str(disk)], check=True)
    try:
        yield
    finally:
        subprocess.run(["umount", str(disk)], check=True)


@dataclass
class Due:
    """What the program answers to a line, and all that it says of the office before the line and after it."""

    answer: str
    before: tuple
    after: tuple


class Trial:
    """The program, the fault that it meets, a folder to work in, and what was seen."""

    def __init__(self, program, fault, folder):
        self.program, self.fault, self.folder = program, fault, folder
        self.seen = Counter[str]()

    def words(self, office, words):
        """The program's own words for a line on this office."""
        line = words if words[0] == "import" else ["do", *words]
        return [self.program, line[0], "--db", str(office), *line[1:]]

    def told(self, office, words):
        """What the program answers to a line on this office, and how long it takes."""
        began = time.monotonic()
        done = subprocess.run(self.words(office, words), capture_output=True, text=True, check=False)
        return done.stdout, time.monotonic() - began

    def shown(self, office):
        """All that the program says of the office, asked of a copy."""
        copy = self.folder / "shown.db"
        copy_office(office, copy)
        return tuple(self.told(copy, line.split())[0] for line in ASKED), content_of(copy)

    def is_whole(self, office):
        """Whether `sqlite3` finds nothing wrong with a copy of the file and its log."""
        copy = self.folder / "whole.db"
        copy_office(office, copy)
        asked = "PRAGMA integrity_check; PRAGMA foreign_key_check;"
        done = subprocess.run(["sqlite3", str(copy), asked], capture_output=True, text=True, check=False)
        return done.stdout.strip() == "ok" and not done.stderr

    def line(self, office, words, times):
        """Lets runs of one line fail, and leaves the office after it."""
        after = self.folder / "after.db"
        copy_office(office, after)
        before, (answer, took) = self.shown(office), self.told(after, words)
        due, longest = Due(answer, before, self.shown(after)), bytes_of(after)
        for _ in range(times):
            victim = self.fault.victim
            copy_office(office, victim)
            came = self.fault.meet(self.words(victim, words), took, longest)
            self.judge(victim, words, came, due)
        copy_office(after, office)

    def judge(self, victim, words, came, due):
        """Counts a run that met the fault, or ends at what must not be."""
        shown, changed, line = self.shown(victim), due.after != due.before, " ".join(words)
        if not self.is_whole(victim):
            sys.exit(f"not whole after {line}")
        if shown not in (due.before, due.after):
            sys.exit(f"neither before nor after: {line}")
        if came == due.answer and shown != due.after:
            sys.exit(f"answered and lost: {line}")
        if not due.answer.startswith(came) and came != "unavailable\n":
            sys.exit(f"another answer: {line}: {came}")
        self.seen["runs"] += 1
        self.seen["answered"] += came == due.answer
        self.seen["answered unavailable"] += came == "unavailable\n"
        self.seen["kept, and not answered"] += changed and came != due.answer and shown == due.after
        self.seen["nothing kept"] += changed and shown == due.before


def tried(program, fault, folder, script, times):
    """Takes an office through a year, each line with so many runs that fail; returns what was seen."""
    trial, office = Trial(program, fault, folder), folder / "office.db"
    subprocess.run([program, "new", "--db", str(office)], check=True, stdout=subprocess.DEVNULL)
    for words in kept_words(Path(script)):
        trial.line(office, words, times)
    return trial.seen


def tried_so(way, program, script, times):
    """Tries one way to fail on the lines of a script; gives what was seen."""
    draws = random.Random(1999)
    with tempfile.TemporaryDirectory() as name:
        folder = Path(name)
        if way == "full":
            with small_disk(folder):
                return tried(program, Full(folder, draws), folder, script, times)
        fault = {"kill": Killed, "limit": Limited}[way](folder, draws)
        return tried(program, fault, folder, script, times)


def main(way, program, times, *scripts):
    """Prints what was seen, a line for each script, and how many runs met the fault in all."""
    if not shutil.which("sqlite3"):
        sys.exit("sqlite3 is not there, which has to find each file whole")
    runs = 0
    for script in scripts:
        seen = tried_so(way, program, script, int(times))
        runs += seen["runs"]
        print(f"{way}, {script}: " + ", ".join(f"{what} {count}" for what, count in seen.items()), flush=True)
    print(f"{way}: {runs} runs in all")


if __name__ == "__main__":
    main(*sys.argv[1:])

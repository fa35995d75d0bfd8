"""Power cuts, at every moment that matters: each write that is not flushed yet is kept, lost, kept without those before
it, or torn at 512 bytes.

strace records what the program writes and flushes while it carries out a clerk's lines, takes residents' lists, copies
its log into the file, and migrates a file. From this record the trial makes the files that a power cut may leave. The
program has to open each, and to have everything that it had answered; SQLite has to find the same, and no fault.

The control leaves flushes out of the record: then the trial has to find a fault, or it could not find one. This run
alone: /usr/bin/python3 deploy/trial/crash_states.py PROGRAM

deploy/package/trial-power cuts the power of a whole machine instead, a few times.
"""

import contextlib
import hashlib
import http.client
import json
import os
import random
import shutil
import sqlite3
import subprocess
import sys
import tempfile
from collections.abc import Callable, Iterator
from concurrent.futures import ThreadPoolExecutor
from functools import partial
from pathlib import Path
from typing import NamedTuple

from crash_disk import Disk, Files, cuts
from crash_record import Event, Say, Write, events_of, words_of_strace
from earlier import make_earlier, rows_of
from stand import check, fail, free_ports, key_of, until

FILE = "rooms.db"
LOG = "rooms.db-wal"
FOLDER = "office"
PEOPLE = ("T1", "T2")
# How what is accepted begins. A cut after such an answer may lose nothing of it.
ACCEPTED = (b"ok\n", b"round ", b"chosen", b"added ", b"cancelled\n", b"HTTP/1.1 200 ")
# The engine copies its log into the file once the log has more pages than this, of so many bytes with their heads.
LOG_PAGES, LOG_PAGE = 1000, 4120
# The flushes that a control leaves out, by the end of the path.
FLUSHES = {"": "any flush", FILE: "flushes of the file", LOG: "flushes of the log", FOLDER: "flushes of the folder"}


Rows = dict[str, list[tuple[object, ...]]]


class Office(NamedTuple):
    """What is asked of an office: the version of its file, the phase, the rooms, and the lists of T1 and T2."""

    version: int
    phase: str
    rooms: str
    lists: str


class Work(NamedTuple):
    """What was recorded: the files before it, what was done, and the offices, one for each number of answers.

    None stands for a file that is no office yet. `rows` are those that the file has before it and after it, for a
    migration.
    """

    name: str
    before: Files
    events: list[Event]
    offices: list[Office | None]
    rows: Rows = {}


# --- what an office has

def ask(program: str, file: Path, *line: str) -> str:
    """What the program answers to a line."""
    return subprocess.run([program, "do", "--db", file, *line], capture_output=True, text=True, check=False).stdout


def seen_by_program(program: str, file: Path) -> Office | None:
    """The office as the program says."""
    said = ask(program, file, "round")
    if said == "refused 22 OtherVersion 1\n":
        return Office(1, "", "", "")
    if not said.startswith("round "):
        return None
    rooms = [line.split()[0] for line in ask(program, file, "rooms").splitlines()[1:]]
    lists = []
    for person in PEOPLE:
        lines = ask(program, file, "me", key_of(person)).splitlines()
        lists += [" ".join(line.split()[1:]) for line in lines if line.startswith("choices")]
    return Office(3, said.split()[2], " ".join(rooms), "/".join(lists))


def seen_by_sqlite(file: Path) -> Office | str | None:
    """The office as SQLite finds it, or what SQLite has to say against the file."""
    with contextlib.suppress(sqlite3.DatabaseError), contextlib.closing(sqlite3.connect(file)) as database:
        if (found := database.execute("PRAGMA integrity_check").fetchall()) != [("ok",)]:
            return str(found)
        (version, phase), = database.execute("SELECT version, phase FROM round").fetchall()
        if version == 1:
            return Office(1, "", "", "")
        rooms = [code for code, in database.execute("SELECT code FROM room ORDER BY code")]
        choices = "SELECT room FROM choice WHERE person = ? ORDER BY place"
        people = [person for person, in database.execute("SELECT id FROM person ORDER BY id") if person in PEOPLE]
        lists = [" ".join(room for room, in database.execute(choices, (person,))) for person in people]
        return Office(version, phase, " ".join(rooms), "/".join(lists))
    return None


def has_rows(file: Path, rows: Rows) -> bool:
    """Whether a file has these rows, whatever its version."""
    _, found = rows_of(file)
    return all(set(wanted) <= set(found[name]) for name, wanted in rows.items())


def goes_on(program: str, file: Path, office: Office | None) -> str:
    """Whether the office takes a line that changes it, and has it afterwards: what is wrong, or nothing."""
    if office is None or office.version == 1:
        word = "new" if office is None else "migrate"
        done = subprocess.run([program, word, "--db", file], capture_output=True, text=True, check=False)
        return "" if done.stdout == "ok\n" else f"{word} is answered {done.stdout!r}"
    said = ask(program, file, "room", "ZZ")
    rooms = ask(program, file, "rooms")
    return "" if said == "ok\n" and "\nZZ " in rooms else f"a line is answered {said!r}, and then {rooms!r}"


def fault_of(program: str, allowed: list[Office | None], rows: Rows, files: Files) -> str:
    """What is wrong with the files that a power cut left, or nothing."""
    with tempfile.TemporaryDirectory(prefix="rooms-cut-", dir="/dev/shm") as folder:
        for name in ("program", "sqlite"):
            (Path(folder) / name).mkdir()
            for path, content in files.items():
                (Path(folder) / name / Path(path).name).write_bytes(content)
        file = Path(folder) / "program" / FILE
        office = seen_by_program(program, file)
        if office not in allowed:
            return f"the program finds {office} in place of {allowed}"
        other = seen_by_sqlite(Path(folder) / "sqlite" / FILE)
        if other != office:
            return f"SQLite finds {other}, and the program {office}"
        if rows and not has_rows(Path(folder) / "sqlite" / FILE, rows):
            return "rows are missing"
        fault = goes_on(program, file, office)
        return "rows are missing in the end" if not fault and rows and not has_rows(file, rows) else fault


# --- power cuts

def try_cuts(program: str, work: Work, limit: int, ignored: str | None = None) -> tuple[int, int, str]:
    """How many cuts and states were tried, and the first fault. The control ignores some flushes."""
    disk, chance, known = Disk(work.before, ignored), random.Random(1), set[tuple[int, bytes]]()
    count = 0
    with ThreadPoolExecutor(len(os.sched_getaffinity(0))) as pool:
        for cut in cuts(disk, work.events, limit, chance):
            count += 1
            states = [files for files in cut.files if is_new(known, cut.said, files)]
            allowed = work.offices[cut.said : cut.said + 2]
            for fault in pool.map(partial(fault_of, program, allowed, work.rows), states):
                if fault:
                    return count, len(known), f"cut {count}, after {cut.said} answers: {fault}"
    return count, len(known), ""


def is_new(known: set[tuple[int, bytes]], said: int, files: Files) -> bool:
    """Whether these files were not tried yet, after so many answers. Notes them."""
    found = hashlib.sha256()
    for path, content in sorted(files.items()):
        found.update(f"{path} {len(content)} ".encode() + content)
    state = (said, found.digest())
    is_first = state not in known
    known.add(state)
    return is_first


def try_work(program: str, work: Work, limit: int, *controls: str) -> None:
    """Tries what was recorded, and the controls: words of the files whose flushes are left out."""
    answers = sum(isinstance(event, Say) for event in work.events)
    check(f"{work.name}: {answers} answers were recorded", answers == len(work.offices) - 1, work.offices)
    count, states, fault = try_cuts(program, work, limit)
    check(f"{work.name}: {count} power cuts leave {states} different states, and none has a fault", not fault, fault)
    for ignored in controls:
        *_, fault = try_cuts(program, work, limit, ignored)
        check(f"{work.name}: without {FLUSHES[ignored]} the trial finds a fault", fault)
        print(f"      {fault}")


# --- what is recorded

class Recorder:
    """Records the program's work on an office in a folder of its own."""

    def __init__(self, program: str, folder: Path) -> None:
        self.program, self.folder = program, folder / FOLDER
        self.file, self.trace = self.folder / FILE, folder / "trace"
        self.folder.mkdir()

    def files(self) -> Files:
        """The files as they are now; all of them are on the disk."""
        return {str(path): path.read_bytes() for path in sorted(self.folder.iterdir()) if path.name in (FILE, LOG)}

    def run(self, words: list[str], beside: Callable[[], None] = lambda: None, around: tuple[str, ...] = ()) -> None:
        """Runs the program, which has to accept, and does something beside it."""
        command = [*around, self.program, words[0], "--db", str(self.file), *words[1:]]
        with subprocess.Popen(command, stdout=subprocess.PIPE, stderr=subprocess.STDOUT) as process:
            try:
                beside()
                said, _ = process.communicate(timeout=120)
            finally:
                process.terminate()
        if process.returncode != 0:
            fail(f"{words} ended with {process.returncode}: {said!r}")

    def record(self, words: list[str], beside: Callable[[], None] = lambda: None) -> list[Event]:
        """The same, and gives what the program did."""
        self.run(words, beside, words_of_strace(self.trace))
        return [
            event for event in events_of(self.trace, self.folder)
            if not isinstance(event, Say) or event.data.startswith(ACCEPTED)
        ]

    def work(self, name: str, before: Files, events: list[Event], offices: list[Office | None]) -> Work:
        """What was recorded. With all writes it has to give the files as they are."""
        disk = Disk(before)
        for event in events:
            disk.take(event)
        check(f"{name}: the record gives the files as they are", disk.files(disk.pending) == self.files())
        return Work(name, before, events, offices)


LINES = [
    (["room", "A"], ("idle", "A", "")),
    (["room", "B"], ("idle", "A B", "")),
    (["person", "T1", key_of("T1"), "Tim", "Tan"], ("idle", "A B", "")),
    (["home", "T1", "A"], ("idle", "A B", "")),
    (["open"], ("open", "A B", "")),
    (["choose", "T1", "B", "A"], ("open", "A B", "B A")),
    (["room", "C"], ("open", "A B C", "B A")),
    (["cancel"], ("idle", "A B C", "")),
]


def clerk(recorder: Recorder) -> Work:
    """A new office, a clerk's lines, each a run of the program, and a list of rooms."""
    offices = [None, *(Office(3, *office) for office in [("idle", "", ""), *(office for _, office in LINES)])]
    events = recorder.record(["new"])
    for line, _ in LINES:
        events += recorder.record(["do", *line])
    rooms = recorder.trace.with_name("rooms.csv")
    rooms.write_text("room\n" + "".join(f"D{number:02}\n" for number in range(40)), encoding="ascii")
    events += recorder.record(["import", "rooms", "rooms-1", str(rooms)])
    codes = " ".join(["A B C", *(f"D{number:02}" for number in range(40))])
    return recorder.work("a clerk's lines", {}, events, [*offices, Office(3, "idle", codes, "")])


ROOMS = [f"R{number:02}" for number in range(20)]


def list_of(number: int) -> list[str]:
    """The list with this number: each differs from the one before."""
    return [ROOMS[(number + step) % len(ROOMS)] for step in range(10)]


def hand_in(port: int, first: int, count: int) -> None:
    """Residents hand in so many lists, in turn."""
    for number in range(first, first + count):
        connection = http.client.HTTPConnection("127.0.0.1", port, timeout=60)
        until(partial(connects, connection), 60, "the server")
        key = {"Room-Key": key_of(PEOPLE[number % 2])}
        connection.request("PUT", "/me/choices", json.dumps(list_of(number)), key)
        status = connection.getresponse().status
        connection.close()
        if status != 200:
            check(f"list {number} is taken", False, status)


def connects(connection: http.client.HTTPConnection) -> bool:
    """Whether the server is there."""
    with contextlib.suppress(ConnectionRefusedError):
        connection.connect()
        return True
    return False


def served(count: int) -> list[str]:
    """The words for a server that ends after so many lists."""
    return ["serve", "--port", str(free_ports(1)[0]), "--count", str(count)]


def after_lists(first: int, count: int) -> list[Office | None]:
    """The offices before and after each of these lists."""
    lists = [" ".join(list_of(number)) if number >= 0 else "" for number in range(first - 2, first + count)]
    pairs = [lists[number : number + 2] for number in range(count + 1)]
    if first % 2:
        fail("the first of the lists is that of T1")
    turned = [pair if number % 2 == 0 else pair[::-1] for number, pair in enumerate(pairs)]
    return [Office(3, "open", " ".join(ROOMS), "/".join(pair)) for pair in turned]


def open_office(recorder: Recorder) -> None:
    """An open round with two residents, without a record."""
    recorder.run(["new"])
    for line in (*(f"room {room}" for room in ROOMS), *(f"person {one} {key_of(one)} {one}" for one in PEOPLE), "open"):
        recorder.run(["do", *line.split()])


def residents(recorder: Recorder) -> Work:
    """Residents' lists."""
    open_office(recorder)
    before, words, count = recorder.files(), served(8), 8
    events = recorder.record(words, partial(hand_in, int(words[2]), 0, count))
    return recorder.work("residents' lists", before, events, after_lists(0, count))


def checkpoint(recorder: Recorder) -> Work:
    """Residents' lists while the engine copies its log into the file, and begins the log anew."""
    open_office(recorder)
    # A list makes some three pages. The log stays as long as it was when it begins anew, so it has to be looked at before that.
    count, recorded = 0, 24
    while recorder.file.with_name(LOG).stat().st_size < (LOG_PAGES - 45) * LOG_PAGE:
        words = served(10)
        recorder.run(words, partial(hand_in, int(words[2]), count, 10))
        count += 10
    before, words = recorder.files(), served(recorded)
    events = recorder.record(words, partial(hand_in, int(words[2]), count, recorded))
    is_copied = any(isinstance(event, Write) and event.path.endswith(FILE) for event in events)
    check(f"after {count} lists the engine copies its log into the file", is_copied)
    return recorder.work("lists beside a copied log", before, events, after_lists(count, recorded))


def migration(recorder: Recorder) -> Work:
    """A file of version 1 is brought to version 3."""
    make_earlier(recorder.file, 1)
    before = recorder.files()
    events = recorder.record(["migrate"])
    after = Office(3, "open", "O1 O2 O3 O4", "")
    work = recorder.work("a migration", before, events, [Office(1, "", "", ""), after])
    make_earlier(recorder.trace.with_name("before"), 1)
    return work._replace(rows=rows_of(recorder.trace.with_name("before"))[1])


@contextlib.contextmanager
def recording(program: str) -> Iterator[Recorder]:
    """A recorder, and its folder as long as it is used."""
    folder = tempfile.mkdtemp(prefix="rooms-record-", dir="/dev/shm")
    try:
        yield Recorder(program, Path(folder))
    finally:
        shutil.rmtree(folder)


def try_crash_states(program: str) -> None:
    """All of it."""
    program = str(Path(program).resolve())
    for make, limit, controls in (
        (clerk, 24, ("", LOG, FILE, FOLDER)),
        (residents, 24, (LOG,)),
        (checkpoint, 8, (LOG, FILE)),
        (migration, 24, (LOG, FOLDER)),
    ):
        with recording(program) as recorder:
            work = make(recorder)
        try_work(program, work, limit, *controls)


if __name__ == "__main__":
    if len(sys.argv) != 2:
        sys.exit("usage: /usr/bin/python3 deploy/trial/crash_states.py PROGRAM")
    try_crash_states(sys.argv[1])

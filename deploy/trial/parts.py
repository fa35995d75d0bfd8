"""The keeper's parts by themselves: what the journal hides, and copies that are kept.

No program is needed. This run alone: /usr/bin/python3 deploy/trial/parts.py
"""

import contextlib
import datetime
import errno
import json
import os
import runpy
import shutil
import sqlite3
import sys
import tempfile
import time
from pathlib import Path
from unittest import mock

from own_tables import try_own_tables
from stand import OFFICE, check

sys.path.append(str(OFFICE))

# pylint: disable=wrong-import-position,wrong-import-order  # they are in the folder of the line above
from accounts import Accounts, ClerkRequests
from backups import ASKED_FOR, Backups
from change import Change
from copies import Copies, make_whole
from journal import NOT_NOTED, Journal, masked_line, masked_note, spoken_of, without_names
from lines import gone_by, is_copied_before, only_reads, shows_a_key
from office import Office
from program import Answer
from settings import Fault, Settings, unwritten
from worker import Worker

KEY = "0123456789abcdef0123456789abcdef"


@contextlib.contextmanager
def an_office():
    """The settings of an office with one room, whose log is not yet in its file."""
    with tempfile.TemporaryDirectory(prefix="rooms-parts-") as folder:
        file, made = Path(folder) / "rooms.db", Path(folder) / "scratch" / "rooms.db"
        made.parent.mkdir()
        with contextlib.closing(sqlite3.connect(made, isolation_level=None)) as database:
            database.execute("PRAGMA journal_mode = WAL")
            database.execute("CREATE TABLE room(code TEXT PRIMARY KEY NOT NULL) STRICT")
            database.execute("PRAGMA wal_checkpoint(TRUNCATE)")
            database.execute("INSERT INTO room VALUES ('OLD')")
            for end in ("", "-wal"):
                shutil.copyfile(f"{made}{end}", f"{file}{end}")
        made.unlink()
        yield Settings(
            file=file,
            program="/bin/false",
            port=1,
            socket=Path(folder) / "socket",
            speakers=frozenset(),
            scratch=Path(folder) / "scratch",
            line_seconds=1,
            turn_seconds=1,
        )


def rooms_of(file):
    """The rooms that a file has, read from a copy of file and log."""
    with tempfile.TemporaryDirectory() as folder:
        for end in ("", "-wal"):
            with contextlib.suppress(FileNotFoundError):
                shutil.copyfile(f"{file}{end}", f"{folder}/rooms.db{end}")
        with contextlib.closing(sqlite3.connect(f"{folder}/rooms.db")) as database:
            return [code for code, in database.execute("SELECT code FROM room ORDER BY code")]


def hiding():
    """Nothing that may be a key, and nobody's name."""
    for line, wanted in (
        (f"person R9 {KEY} Ann Li", "person R9 (key) (name)"),
        (f"  person   R9 {KEY.upper()} Ann", "person R9 (key) (name)"),
        (f"person {KEY} R9 Ann", "person (key) (key) (name)"),
        ("name R9 Ann Li", "name R9 (name)"),
        (f"key R9 {KEY} Ann", "key R9 (key)"),
        (f"key {KEY} R9", "key (key) (key)"),
        (f"me {KEY}", "me (key)"),
        (f"home R9 {KEY}{KEY}{KEY}", "home R9 (key)"),
        (f"draw {'0123456789abcdef ' * 300}", "draw (300 words)"),
        ("choose R9 A-101 B-102", "choose R9 (2 rooms)"),
    ):
        check(f"the journal has {wanted!r}", masked_line(line) == wanted, masked_line(line))
    seed = KEY + KEY
    check("a seed is public", masked_note(f"seed {seed} rolled") == f"seed {seed} rolled")
    check("a long note is cut", len(masked_note(f"seed {seed} " + "6 " * 10_000)) == 600)
    check(
        "and nothing else behind that word",
        masked_note(f"seed {KEY}") == "seed (key)" and masked_note(f"seed {seed} {KEY}") == f"seed {seed} (key)",
    )
    check("a key at the cut of a note leaves nothing", "0123" not in masked_note("x" + " " * 590 + KEY))
    forged = masked_note("x\n2026-11-29\x1b[2J\r\u2028\x85\u202eanna: close  ->  ok")
    check("a note is one line without control signs", forged == "x 2026-11-29 [2J    anna: close  ->  ok", forged)


def many_lines():
    """Of many lines the journal has all that say who withdraws or is removed."""
    for verb in ("withdraw", "remove"):
        lines = [f"{verb} P{number:04}" for number in range(2_000)]
        check(f"the journal has each of 2,000 people by `{verb}`", spoken_of(lines) == "; ".join(lines))
    lines = [*(f"choose P{number:04} A-1" for number in range(40)), "remove P0001", "close"]
    said = spoken_of(lines)
    begins, ends = "choose P0000 (1 room); choose P0001 (1 room); ", "(1 room); ..; remove P0001; close"
    check("but of lists only the first ones", said.startswith(begins) and said.endswith(ends) and len(said) < 440, said)
    lines = ["remove P1", "remove P2", f"person P2 {KEY} Ann", "remove P3", f"person P4 {KEY} Bea", "remove P4"]
    check("who is out of the register after lines is known", gone_by(lines) == {"P1", "P3", "P4"}, gone_by(lines))


def slips():
    """A line with a slip may have a key where no key belongs: it must not become a command line."""
    wrong = [f"persn R9 {KEY} Ann Li", f"home R9 {KEY.upper()}", f"R9 {KEY}", f"whatif R9 A-1 {KEY[:16]}"]
    check("a key in a line that takes none is seen", all(map(shows_a_key, wrong)))
    right = ["draw 0123456789abcdef fedcba9876543210", "choose R9 A-101 B-102", "home ABCDEFGHIJKL A-1234-X", "rooms"]
    check("and none where there is none", not any(map(shows_a_key, right)))


def copied_before():
    """Before which lines the office is copied."""
    lasting = [
        "close",
        "cancel",
        "draw 00",
        "run",
        "publish",
        "settle",
        "shut A-1",
        "withdraw R1",
        "going R1",
        "leave R1",
        "remove R1",
        "name R1 Ann",
        "key R1 k",
    ]
    check(
        "the office is copied before each line that cannot be taken back",
        all(is_copied_before([one], {}) for one in lasting),
    )
    others = ["room A-1", "person R1 k Ann", "home R1 A-1", "grade R1 2", "reopen A-1", "open", "choose R1 A-1", "blank l-1"]
    check("and before no other", not any(is_copied_before([one], {}) for one in others))
    check(
        "but before a list that replaces another one, and before several lines",
        is_copied_before(["choose R1 A-1"], {"R1": ["A-2"]}) and is_copied_before(["room A", "room B"], {}),
    )
    check(
        "what only reads is known",
        only_reads(["rooms", "  round", "whatif R1 A"]) and not only_reads(["rooms", "open"]),
    )


def answering():
    """Of answers, those of lines that change the office. Any other may have a name."""
    for answer, wanted in (
        ("ok\n", "ok"),
        ("refused 15 BadRecord 2 refusal 4\n", "refused 15 BadRecord 2 refusal 4"),
        ("unavailable\nrooms: the disk of /x is full\n", "unavailable"),
        ("fault: the disk failed\n", "fault: the disk failed"),
        ("person home name\nT1     A-1  Ann Li\n", NOT_NOTED),
        ("person T1\nname Ann Li\n", NOT_NOTED),
        ("okay Ann Li\n", NOT_NOTED),
        ("", NOT_NOTED),
    ):
        check(f"of the answer {answer!r} the journal has {wanted!r}", without_names(answer) == wanted)
    for begin in ("fault: ", "refused "):
        answer = without_names(begin.ljust(290, ".") + " " + KEY)
        check("a key at the cut of an answer leaves nothing", len(answer) <= 300 and "0123" not in answer, answer)


def blanking(settings):
    """An earlier journal is blanked: who did what, and when, stays, and no name."""
    journal = Journal(settings.journal)
    old: list[dict[str, object]] = [
        {"at": "2026-11-01", "n": "1", "who": "anna", "line": "room J1; people"},
        {"at": "2026-11-01", "n": "1", "answer": "person home name\nP0 none Ann Li", "status": 0, "ms": 3},
        {"at": "2026-11-02", "n": "2", "who": "bert", "line": "close"},
        {"at": "2026-11-02", "n": "2", "answer": "closed 3", "status": 0, "ms": 3},
    ]
    settings.journal.write_text("".join(json.dumps(one) + "\n" for one in old) + '{"n": "3", "answer": "me Ann L')
    check("one answer and the cut-off entry are blanked", journal.blank() == 1 and journal.blank() == 0)
    found = list(journal.entries())
    old[1]["answer"] = NOT_NOTED
    check("all else stays", found[:4] == old and len(found) == 5, found)
    check("and no name is left", "Ann" not in settings.journal.read_text("utf-8"))
    check("it is for its owner alone", settings.journal.stat().st_mode & 0o77 == 0)


def noting(settings):
    """The journal as a file."""
    journal = Journal(settings.journal)
    number = journal.begin("anna", "close", "copy-1")
    journal.end(number, f"closed 3 {KEY}\n", 0, 12)
    found = list(journal.entries())
    check("a change has two entries", [one.get("answer") for one in found] == [None, "closed 3 (key)"], found)
    check("the journal is for its owner alone", settings.journal.stat().st_mode & 0o77 == 0, settings.journal.stat())
    open_one = journal.begin("bert", "publish")
    with open(settings.journal, "ab") as held:
        held.write(b'{"at": "cut o')
    again = Journal(settings.journal)
    again.end_unfinished()
    found = [one for one in again.entries() if one.get("n") == open_one]
    check(
        "of a change that was cut off it is noted that its answer is not known",
        len(found) == 2 and found[1]["answer"].startswith("not known"),
        found,
    )
    before = settings.journal.read_bytes()
    with mock.patch("journal.os.fsync", side_effect=OSError(errno.ENOSPC, "No space left on device")):
        try:
            again.begin("anna", "settle")
            check("a journal that cannot be written is a fault", False)
        except Fault as fault:
            check("a journal that cannot be written is a fault", "No space" in str(fault), fault)
        again.end("n-1", "closed 3\n", 0, 1)
    check("and it is as it was before", settings.journal.read_bytes() == before)
    again.note(who="anna", line="backup")
    check(
        "an end that could not be noted comes with the next entry",
        [one.get("answer") for one in list(again.entries())[-2:]] == ["closed 3", None],
    )


def noting_beside(settings):
    """If the journal cannot be written, nothing beside the office's file is changed; and it has what could not be changed."""
    accounts, journal, view = Accounts(settings.accounts), Journal(settings.journal), mock.Mock()
    view.rows.return_value = {"people": [("T1", "Ann Li", None, 0)]}
    job = {"rule": "list", "list": "person,account\nT1,ann\n", "who": "anna"}
    requests = ClerkRequests(accounts, view, journal)
    with mock.patch.object(journal, "add", side_effect=unwritten("the journal", OSError(errno.ENOSPC, "No space left"))):
        said = fault_of(lambda: requests.put(job))
    unchanged = "Nothing was changed" in said and accounts.kept().people == {}
    check("if the journal is full, no accounts come in, and the clerk reads so", unchanged, (said, accounts.kept()))
    with mock.patch("placing.to_disk", side_effect=OSError(errno.ENOSPC, "No space left on device")):
        said = fault_of(lambda: requests.put(job))
    last = list(journal.entries())[-1]
    noted = "No space" in said and last["status"] == 3 and "could not be written" in last["answer"]
    check("if their file is full, the journal says that they did not", noted, (said, last))
    check("and then they come in", requests.put(job) == {"rule": "list", "count": 1})


def fault_of(act):
    """What the fault of an act says, or nothing."""
    try:
        act()
    except Fault as fault:
        return str(fault)
    return ""


def keeping(settings):
    """Kept copies: what is in them, how many stay, and one that is damaged."""
    copies = Copies(settings)
    backups = Backups(settings, copies)
    name = backups.keep("close", "before close, by anna")
    held = settings.backups / name
    check("a copy is one file and its reason", sorted(one.name for one in held.iterdir()) == ["rooms.db", "why"])
    check("it has what was in the log alone", rooms_of(held / "rooms.db") == ["OLD"])
    check(
        "it is listed with its reason", backups.listed() == [(name, backups.listed()[0][1], "before close, by anna")]
    )
    check("and it is for its owner alone", held.stat().st_mode & 0o77 == 0)
    names = [backups.keep("close", f"number {number}") for number in range(25)]
    nights = [backups.keep(ASKED_FOR, "night") for _ in range(3)]
    check(
        "each second may have many copies, with names in order", names + nights == sorted(set(names + nights)), names
    )
    check("of each kind the newest stay", backups.names() == sorted(names[-20:] + nights), backups.names())
    target = settings.scratch / "rooms.db"
    for bad in ("../" + names[-1], names[-1] + "/..", "20200101T000000Z", ""):
        try:
            backups.take(bad, target)
            check(f"there is no copy {bad!r}", False)
        except Fault:
            check(f"there is no copy {bad!r}", not target.exists())
    backups.take(names[-1], target)
    check("a copy is taken out as one whole file", make_whole(target) and rooms_of(target) == ["OLD"])
    with open(settings.backups / names[-1] / "rooms.db", "r+b") as damaged:
        damaged.seek(4096)
        damaged.write(os.urandom(4096))
    try:
        backups.take(names[-1], target)
        check("a damaged copy is not taken", False)
    except Fault as fault:
        check("a damaged copy is not taken", "damaged" in str(fault), fault)


def keeping_ahead(settings):
    """After the clock was set back, kept copies have names of times to come. A new one comes behind them, and stays."""
    backups = Backups(settings, Copies(settings))
    os.utime(settings.file, (time.time() + 3600,) * 2)
    for number in range(20):
        (settings.backups / f"29990101T000059Z-{number + 80:02}").mkdir(parents=True)
        (settings.backups / f"29990101T000059Z-{number + 80:02}" / "why").write_text('{"kind": "close", "why": ""}')
    began = time.monotonic()
    made = [backups.keep("close", "before close") for _ in range(2)]
    check("a file whose time is to come is copied at once", time.monotonic() - began < 3)
    wanted = ["29990101T000100Z", "29990101T000100Z-02"]
    check("a copy comes behind those of times to come, and stays", backups.names()[-2:] == made == wanted, made)


def keeping_by_age(settings):
    """Copies that are too old go. If the clock is set far ahead, all are, and none goes before two nights were by this clock."""
    backups, now = Backups(settings, Copies(settings)), datetime.datetime.now(datetime.timezone.utc)

    def put(kind, *ages):
        names = [f"{now - datetime.timedelta(days=age):%Y%m%dT%H%M%SZ}" for age in ages]
        for name in names:
            (settings.backups / name).mkdir(parents=True)
            (settings.backups / name / "why").write_text(json.dumps({"kind": kind, "why": ""}))
        return names
    os.utime(settings.file, (time.time() - 3600,) * 2)
    before = sorted(put(ASKED_FOR, 500, 501, 502) + put("close", 500.5, 700))
    backups.clear()
    check("with a clock that is far ahead a start deletes no copy", backups.names() == before, backups.names())
    made = [backups.keep("close", "before close") for _ in range(2)] + [backups.keep(ASKED_FOR, "night")]
    check("nor do lines, nor the copy of a night", backups.names() == before + made, backups.names())
    last = backups.keep(ASKED_FOR, "the next night")
    check("after a second night those that are too old go", backups.names() == [*made, last], backups.names())
    old = put("close", 399, 401)
    backups.clear()
    check("and so does one of 401 days, and none of 399", old[0] in backups.names() and old[1] not in backups.names())


def keeping_damaged(settings):
    """A damaged office is kept as it is, where that is asked for."""
    backups = Backups(settings, Copies(settings))
    for end in ("", "-wal"):
        Path(f"{settings.file}{end}").write_bytes(os.urandom(9000))
    try:
        backups.keep("close", "before close")
        check("no line is carried out on a damaged office", False)
    except Fault as fault:
        check("no line is carried out on a damaged office", "damaged" in str(fault), fault)
    held = settings.backups / backups.keep("back", "before back", damaged=True)
    same = all(
        (held / f"rooms.db{end}").read_bytes() == Path(f"{settings.file}{end}").read_bytes() for end in ("", "-wal")
    )
    check(
        "before a copy is put back it is kept as it is", same and not json.loads((held / "why").read_text())["whole"]
    )


def failing(settings):
    """A change in which the keeper itself fails is not answered by what it gave on the copy."""
    worker = Worker(Office(settings))
    change = Change("anna", "room A", lambda _: [], answers=[Answer("ok\n", 0)])
    with mock.patch.object(worker, "make", side_effect=ValueError), contextlib.suppress(ValueError):
        worker.carry_out(change)
    check("a failure of the keeper is a fault", change.done.is_set() and "keeper failed" in change.fault, change)
    change = Change("anna", "room A", lambda _: [])
    with mock.patch.object(worker, "make"):
        worker.carry_out(change)
    check("and what was made has none", change.done.is_set() and not change.fault, change)


def news():
    """Two pages of one clerk at once: each has the news of its own request, and of those that led to it."""
    held, first = runpy.run_path(str(OFFICE / "page/memory.py"))["Memory"](), time.monotonic()
    held.tell("anna", "good", "its own", first)
    second = time.monotonic()
    held.tell("anna", "bad", "of the second request", second)
    check("a page has its own news, and not those of another request", held.news("anna", first) == [("good", "its own")])
    check("which the page has to which that one leads", held.news("anna", time.monotonic()) == [("bad", "of the second request")])
    check("once", held.news("anna", time.monotonic()) == [])


def try_parts():
    """Tries them all."""
    os.umask(0o077)
    try_own_tables()
    hiding()
    answering()
    many_lines()
    slips()
    news()
    copied_before()
    with an_office() as settings:
        blanking(settings)
    with an_office() as settings:
        noting(settings)
        noting_beside(settings)
        failing(settings)
    with an_office() as settings:
        keeping(settings)
    with an_office() as settings:
        keeping_ahead(settings)
    with an_office() as settings:
        keeping_by_age(settings)
    with an_office() as settings:
        keeping_damaged(settings)


if __name__ == "__main__":
    try_parts()

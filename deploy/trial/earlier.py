"""Copies of earlier versions of the office's file: the keeper and rooms-restore bring the one that they put back to the
version of the program, and an office that is not migrated yet takes no line.

This run alone, by root: /usr/bin/python3 deploy/trial/earlier.py PROGRAM
"""

import contextlib
import re
import sqlite3
import subprocess
import sys

from office_requests import Page
from restoring import KEPT_OFFICE, can_restore, restore
from stand import DEPLOY, Stand, check, until

TABLE = re.compile(r"CREATE TABLE (\w+)\(.*?\) STRICT;", re.DOTALL)
VERSION = 3
# The tables that each version has first, and the order in which the program of version 1 kept its own.
COUNTS = {1: 8, 2: 9}
KEPT_FIRST = ("room", "person", "round", "move", "list", "word", "result", "choice")
ROWS = """
    INSERT INTO room VALUES ('O1', 0), ('O2', 0), ('O3', 0), ('O4', 1);
    INSERT INTO person VALUES ('X', 'Xu Xi', 'keyofanearlierx1', 'O1', 0), ('Y', 'Yo Yu', 'keyofanearliery1', 'O2', 0),
        ('Z', 'Zoë Zä', 'keyofanearlierz1', NULL, 0), ('W', 'Wu Wa', 'keyofanearlierw1', NULL, 1);
    INSERT INTO choice VALUES ('X', 0, 'O2'), ('X', 1, 'O3'), ('Y', 0, 'O1'), ('Z', 0, 'O3');
    INSERT INTO move VALUES (1, 'X', NULL, 'O1', 1), (1, 'Y', 'O3', 'O2', NULL);
    INSERT INTO list VALUES ('rooms-1', 'rooms', CAST('room' || char(10) || 'O1' AS BLOB), 1);
"""
OPEN = "round 2 open people 4 withdrawn 1\n"


def documented():
    """The documented tables, by name, in their order."""
    text = (DEPLOY.parent / "docs" / "formats.md").read_text(encoding="utf-8")
    return {found[1]: found[0] for found in TABLE.finditer(text)}


def make_earlier(file, version, order=None):
    """Makes an office of an earlier version, in the middle of an open round."""
    tables = documented()
    file.parent.mkdir(parents=True, exist_ok=True)
    with contextlib.closing(sqlite3.connect(file, isolation_level=None)) as database:
        database.execute("PRAGMA journal_mode = WAL")
        for name in order or list(tables)[: COUNTS.get(version, len(tables))]:
            database.execute(tables[name])
        database.executescript(f"{ROWS} INSERT INTO round VALUES (1, {version}, 2, 'open');")
        if version > 1:
            database.execute("INSERT INTO grade VALUES ('Y', 4)")


def rows_of(file):
    """The version that a file says, and all rows of all tables."""
    with contextlib.closing(sqlite3.connect(file)) as database:
        names = [name for name, in database.execute("SELECT name FROM sqlite_master WHERE type = 'table'")]
        found = {name: sorted(database.execute(f"SELECT * FROM {name}").fetchall(), key=repr) for name in names}
    (_, version, *_), = found.pop("round")
    return version, found


def version_of(stand):
    """The version of the office's file."""
    return stand.ask(ask="view")["version"]


def put_back(stand, name, version, order=None):
    """A kept copy of an earlier version is put back, and is of this version then."""
    copy = stand.data / "backups" / name / stand.file.name
    make_earlier(copy, version, order)
    bytes_before = copy.read_bytes()
    _, before = rows_of(copy)
    told = stand.command("back", name)
    check(f"a copy of version {version} is put back", told[0] == 0, told)
    stand.until_listening(stand.server_port)
    check("it is of this version then", version_of(stand) == VERSION)
    check("the round is where it was", stand.office("round") == OPEN)
    view = stand.ask(ask="view")
    people = [[person, name, home, withdrawn] for person, name, _, home, withdrawn in before["person"]]
    check("the people and their homes are the same", sorted(view["people"]) == people, view["people"])
    check("so are the wishes", view["choices"] == {"X": ["O2", "O3"], "Y": ["O1"], "Z": ["O3"]}, view["choices"])
    grades = [["Y", 4]] if version > 1 else []
    check("nobody leaves, and grades are as before", (view["grades"], view["going"]) == (grades, []), view["grades"])
    check("the kept copy is as it was", copy.read_bytes() == bytes_before)
    check("the office goes on", stand.office("grade X 1") == "ok\n")
    check("and takes a leaver", stand.office("going X") == "going\n")
    check("and forth again", stand.command("back", told[1].strip())[0] == 0)
    stand.until_listening(stand.server_port)


def put_back_later(stand):
    """A copy of a later version is not put back."""
    name = "20200101T000009Z"
    copy = stand.data / "backups" / name / stand.file.name
    make_earlier(copy, VERSION)
    with contextlib.closing(sqlite3.connect(copy, isolation_level=None)) as database:
        database.execute(f"UPDATE round SET version = {VERSION + 1}")
    before = stand.office("rooms")
    told = stand.command("back", name)
    check("a copy of a later version is refused", told[0] == 3 and f"OtherVersion {VERSION + 1}" in told[2], told)
    check("and the office is as before", stand.office("rooms") == before)


def restored(stand):
    """The same by rooms-restore, while no keeper runs."""
    for number, (version, order) in enumerate([(1, None), (1, KEPT_FIRST), (2, None)]):
        folder = stand.folder / f"copy-{number}"
        make_earlier(folder / stand.file.name, version, order)
        (folder / "why").write_text(KEPT_OFFICE, encoding="utf-8")
        before = rows_of(folder / stand.file.name)
        stand.stop_keeper()
        told = restore(stand, folder)
        check(f"rooms-restore takes a copy of version {version}", told[0] == 0 and "earlier version" in told[1], told)
        after, rows = rows_of(stand.file)
        same = {name: rows[name] for name in before[1]}
        check("the office is of this version, with the same rows", after == VERSION and same == before[1], rows)
        check("the copy is as it was", rows_of(folder / stand.file.name) == before)
        stand.start()
        check("and the keeper goes on with it", stand.office("round") == OPEN)


def refuse_link(stand):
    """The account may own the folder of a copy: a link there leads rooms-restore nowhere."""
    folder = stand.folder / "copy-of-links"
    folder.mkdir()
    (folder / stand.file.name).symlink_to("/etc/shadow")
    told = restore(stand, "--without-log", folder)
    check("rooms-restore follows no link", told[0] == 1 and "cannot be copied" in told[2], told)


def start_earlier(stand):
    """Starts the keeper over an office of version 1."""
    stand.stop_keeper()
    for end in ("", "-wal", "-shm"):
        stand.file.with_name(stand.file.name + end).unlink(missing_ok=True)
    make_earlier(stand.file, 1)
    stand.start_keeper()


def not_migrated(stand):
    """An office whose file is of an earlier version: lines are refused, the view is there, and the way on as well."""
    start_earlier(stand)
    told = stand.command("do", "room", "O9")
    check("an office of version 1 takes no line", told[:2] == (1, "refused 22 OtherVersion 1\n"), told)
    told = stand.command("view")
    check("and can be looked at", told[0] == 0 and told[1].startswith("round 2 open\n"), told)
    stand.start_page()
    stand.start_proxy()
    status, _, text = Page(stand).get("/office/")
    check("the office's page says so", status == 200 and "brought to version\n3" in text, text)
    told = stand.command("record")
    check("there is no record of it", told[0] != 0 and "rooms migrate" in told[2], told)
    check("it can be kept", stand.command("backup")[0] == 0)
    check("it is of version 1 still", version_of(stand) == 1)
    stand.stop_keeper()
    done = subprocess.run([stand.program, "migrate", "--db", stand.file], capture_output=True, text=True, check=False)
    check("rooms migrate brings it to this version", done.stdout == "ok\n", done)
    stand.start()
    until(lambda: stand.server() is not None, 30, "the server")
    check("and then it goes on", stand.office("round") == OPEN and stand.office("room O9") == "ok\n")
    stand.until_listening(stand.server_port)
    text = Page(stand).get("/office/")[2]
    check("also on the page", "has to be brought" not in text and "does not run" not in text, text)


def put_back_in_earlier(stand):
    """If the office's own file is of an earlier version, a copy of it can be put back too."""
    start_earlier(stand)
    name = stand.script("rooms-office", "backup").strip()
    told = stand.command("back", name)
    check("a copy is put back in the place of a file that is not migrated", told[0] == 0, told)
    stand.until_listening(stand.server_port)
    check("and is of this version", version_of(stand) == VERSION and stand.office("round") == OPEN)


def try_earlier(program):
    """All of it."""
    with Stand(program) as stand:
        stand.start()
        stand.office("room NOW")
        put_back(stand, "20200101T000001Z", 1)
        put_back(stand, "20200101T000002Z", 1, KEPT_FIRST)
        put_back(stand, "20200101T000003Z", 2)
        put_back_later(stand)
        not_migrated(stand)
        put_back_in_earlier(stand)
        if can_restore():
            restored(stand)
            refuse_link(stand)
        check("no trace of a fault is in the log", "Traceback" not in stand.log("keeper"), stand.log("keeper"))


if __name__ == "__main__":
    if len(sys.argv) != 2:
        sys.exit("usage: /usr/bin/python3 deploy/trial/earlier.py PROGRAM")
    try_earlier(sys.argv[1])

"""`rooms-restore` where a keeper was killed in the middle of a change, where there is no office, and where a program has
the file; and which units it starts again.

It needs root and a machine without the units. This run alone, also over standin.py: /usr/bin/python3
deploy/trial/restoring.py PROGRAM
"""

import contextlib
import os
import runpy
import shutil
import sqlite3
import subprocess
import sys
import time
from pathlib import Path
from unittest import mock

from stand import DEPLOY, OFFICE, PYTHON, Stand, check, key_of

sys.path.append(str(OFFICE))

# pylint: disable=wrong-import-position,wrong-import-order  # they are in the folder of the line above
from entries import merged
from seeds import noted_seeds

SEED = "5eed" * 16
KEPT_OFFICE = '{"kind": "backup", "why": "", "whole": true}\n'


def restore(stand, *words):
    """Runs rooms-restore, and returns its status, its output, and its standard error."""
    environment = {**stand.environment, "ROOMS_ACCOUNT": "root"}
    command = [PYTHON, str(DEPLOY / "rooms-restore"), *map(str, words)]
    done = subprocess.run(command, env=environment, capture_output=True, text=True, check=False)
    return done.returncode, done.stdout, done.stderr


def can_restore():
    """Whether rooms-restore can be tried: it stops the units of a machine with systemd, so there it is left out."""
    if os.geteuid() != 0 or Path("/run/systemd/system").exists():
        print("      rooms-restore is left out: it needs root, and a machine without units")
        return False
    return True


def rooms_of(file):
    """The rooms of an office in a file, by SQLite."""
    with contextlib.closing(sqlite3.connect(file)) as database:
        return {code for code, in database.execute("SELECT code FROM room")}


def copy_with(stand, target, room):
    """A copy of the office, in one file, with one more room."""
    target.parent.mkdir(exist_ok=True)
    for end in ("", "-wal"):
        with contextlib.suppress(FileNotFoundError):
            shutil.copyfile(f"{stand.file}{end}", f"{target}{end}")
    with contextlib.closing(sqlite3.connect(target)) as database:
        with database:
            database.execute("INSERT INTO room VALUES (?, 0)", (room,))


def cut_before(stand, folder):
    """A keeper was killed after the old log was gone and before the renaming: what had yet to come is the office."""
    copy_with(stand, stand.data / "rooms.db.next", "NEWEST")
    for end in ("-wal", "-shm"):
        stand.file.with_name(stand.file.name + end).unlink(missing_ok=True)
    told = restore(stand, folder)
    check("after such a kill rooms-restore puts the copy back", told[0] == 0 and "COPY" in rooms_of(stand.file), told)
    kept = Path(told[1].partition("what was there is kept: ")[2].partition("\n")[0])
    check("and keeps the office that had yet to come", "NEWEST" in rooms_of(kept / stand.file.name), told)
    left = {one.name for one in stand.data.iterdir()} - {"rooms.db", "rooms.db-wal", "rooms.db-shm", "backups"}
    check("with nothing left over", not left, left)
    start_over(stand)


def no_office(stand, folder):
    """The file is gone, as on a new machine; then only its log and what a killed keeper left are there."""
    for left in ((), ("rooms.db-wal", "rooms.db.part")):
        for one in stand.data.glob("rooms.db*"):
            one.unlink()
        for name in left:
            (stand.data / name).write_bytes(os.urandom(9000))
        told = restore(stand, folder)
        what = "beside what a keeper left" if left else "into an empty folder"
        check(f"rooms-restore puts the copy {what}", told[0] == 0 and "COPY" in rooms_of(stand.file), told)
        start_over(stand)


def start_over(stand):
    """The keeper completes what it finds begun when it starts: it must find nothing."""
    stand.start()
    codes = {row[0] for row in stand.ask(ask="view")["rooms"]}
    stand.stop_keeper()
    check("a keeper that starts then serves the copy", {"OLD", "COPY"} == codes, codes)


def done_around(states):
    """Which commands `stopped` of rooms-restore gives where systemd says this of socket and keeper."""
    done: list[object] = []

    def run(words, **_):
        if words[1] != "is-active":
            done.append(words)
        return subprocess.CompletedProcess(words, 0, "\n".join([*states, ""]))

    command = runpy.run_path(str(DEPLOY / "rooms-restore"))
    with mock.patch.object(Path, "exists", return_value=True), mock.patch("subprocess.run", run), command["stopped"]():
        done.append("in place")
    return done


def units():
    """A keeper between two crashes is not active, but its socket is. Both are stopped, and both are started again."""
    both = ["rooms-keeper.socket", "rooms-keeper.service"]
    for states in (("active", "activating"), ("active", "active"), ("inactive", "activating")):
        done = done_around(states)
        wanted = [["systemctl", "stop", *both], "in place", ["systemctl", "start", *both]]
        check(f"if socket and keeper are {' and '.join(states)}, both are started again", done == wanted, done)
    done = done_around(("inactive", "failed"))
    check("if they are inactive and failed, neither is", done == ["in place"], done)


def in_use(stand, folder):
    """A program has the file: rooms-restore waits for a moment, and leaves all as it was."""
    before = rooms_of(stand.file)
    words = [stand.program, "serve", "--db", str(stand.file), "--port", str(stand.server_port), "--count", "9"]
    with subprocess.Popen(words, stdout=subprocess.DEVNULL) as server:
        stand.until_listening(stand.server_port)
        began = time.monotonic()
        told = restore(stand, folder)
        took = time.monotonic() - began
        server.terminate()
    check("a file that a program has is not replaced", told[0] == 1 and "has the office's file open" in told[2], told)
    check(f"it was said after {took:.1f} s, and nothing was changed", took < 30 and rooms_of(stand.file) == before)


def in_journal(stand):
    """The office goes back to before a draw, after its round was settled. The journal says so, and no seed is hidden by it."""
    stand.fill(["A-1"], ["T01"])
    stand.start()
    for line in ("open", "close"):
        stand.office(line)
    stand.ask(ask="note", line=f"seed {SEED} 50 throws of a die")
    stand.ask(ask="draw", seed=SEED)
    for line in ("run", "publish", "settle"):
        stand.office(line)
    copy = next(name for name, _, why in stand.ask(ask="backups")["backups"] if "before draw" in why)
    stand.stop_keeper()
    told = restore(stand, stand.data / "backups" / copy)
    stand.start()
    journal = stand.ask(ask="journal", last=100)["journal"]
    backs = [entry for entry in merged(journal) if entry.get("line") == f"back {copy}"]
    kept = Path(told[1].partition("what was there is kept: ")[2].partition("\n")[0]).name
    check("the journal says that rooms-restore went back, to which copy, and what it kept before",
          [(one["who"], one["answer"], one["copy"]) for one in backs] == [("rooms-restore", "ok", kept)], (told, backs))
    seeds = noted_seeds(journal, True)
    check("the seed of the draw before is among those of the round", [one.seed for one in seeds.found] == [SEED], seeds)
    stand.ask(ask="draw", seed="b" * 64)
    stand.office("run")
    record = stand.ask(ask="record")["body"]
    check("and the public record has both draws and the way back", record.count("was drawn, by the seed") == 2
          and "the office went back to the copy of" in record, record[:2000])


def other_people(stand):
    """An identifier went to somebody else since the copy. What is kept beside the register stays, and rooms-restore names it."""
    stand.fill(["A-1"], ["T01", "T02", "T03"])
    stand.start()
    copy = stand.ask(ask="backup")["name"]
    stand.ask(ask="do", lines=["remove T02", f"person T02 {key_of('other')} Other T02", "room A-2"], again=["T02"])
    stand.ask(ask="correct", person="T03", key=key_of("new"))
    stand.ask(ask="set-accounts", rule="list", list="person,account\nT02,other\nT03,tea\n")
    for said in (True, False):
        stand.stop_keeper()
        told = restore(stand, stand.data / "backups" / copy)
        stand.start()
        check("who has another name than before is named, since an account may be another person's" if said else
              "nobody is named if all have the names of before", told[0] == 0
              and ("another name than in the office that was there" in told[1]) == said
              and told[1].rstrip().endswith(": T02") == said, told)


def old_keys(stand):
    """Everybody has another key since the copy, one person was removed, and then the office is damaged, or gone."""
    stand.fill(["A-1"], ["T01", "T02", "T03"])
    stand.start()
    copy = stand.ask(ask="backup")["name"]
    stand.ask(ask="keys", keys={"T01": key_of("new1"), "T02": key_of("new2")})
    stand.ask(ask="forget", person="T03")
    stand.stop_keeper()
    told = restore(stand, stand.data / "backups" / copy)
    said = told[1].partition("in place: ")[2]
    check("rooms-restore says whose keys are those of the copy again, and what makes new ones", told[0] == 0 and
          "2 people have the key of the copy again, and the key of before does not work: T01 T02." in said
          and said.count("rooms-office key PERSON") == 1, told)
    check("and who is in the register again", "one person is in the register again, with the key of the copy: T03\n" in said, told)
    check("also that this one was forgotten", "who were forgotten: T03. Forget them again: rooms-office forget" in said, told)
    check("which is so", {key_of("T01"), key_of("T02"), key_of("T03")} == keys_in_file(stand))
    told = restore(stand, stand.data / "backups" / copy)
    check("nothing is said of keys if none changes", told[1].rstrip().endswith(f"in place: {stand.file}"), told)
    stand.file.write_bytes(os.urandom(9000))
    for what, begin in (("damaged", "the office that was there cannot be read as a whole"), ("gone", "no office was there")):
        told = restore(stand, stand.data / "backups" / copy)
        check(f"of an office that is {what} it says that nobody knows whose keys were changed, and what to do", told[0] == 0 and
              f"{begin}, so nobody here knows whose keys were changed after the copy was made." in told[1]
              and "keys that were made later do not" in told[1] and "rooms-office key PERSON" in told[1], told)
        check("and it names who was forgotten since the copy, by the journal", "who were forgotten: T03. Forget" in told[1], told)
        stand.file.unlink()
    check("no key was printed", "key000000000" not in told[1] + said, told)


def keys_in_file(stand):
    """All keys of the office, by SQLite."""
    with contextlib.closing(sqlite3.connect(stand.file)) as database:
        return {key for key, in database.execute("SELECT passkey FROM person")}


def try_restoring(program):
    """All of it."""
    if not can_restore():
        return
    with Stand(program) as stand:
        stand.tell("room OLD")
        folder = stand.folder / "copy"
        copy_with(stand, folder / stand.file.name, "COPY")
        (folder / "why").write_text(KEPT_OFFICE, encoding="utf-8")
        cut_before(stand, folder)
        no_office(stand, folder)
        in_use(stand, folder)
    with Stand(program) as stand:
        in_journal(stand)
    with Stand(program) as stand:
        other_people(stand)
    with Stand(program) as stand:
        old_keys(stand)
    units()


if __name__ == "__main__":
    if len(sys.argv) != 2:
        sys.exit("usage: /usr/bin/python3 deploy/trial/restoring.py PROGRAM")
    try_restoring(sys.argv[1])

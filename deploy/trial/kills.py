"""The keeper is killed in the middle of each kind of line of a small year, and started again.

Each time the office is as before the line or as after it, or as after one of several lines; what was answered is in effect,
what is in effect is in the journal, and no server is left over. This run alone, also over standin.py in place of the program:
/usr/bin/python3 deploy/trial/kills.py PROGRAM
"""

import base64
import contextlib
import sqlite3
import sys
import threading
import time
from pathlib import Path

from beside import copies_of
from stand import Stand, check, command_of, until

KILLS = 5
KNOWN = ("rooms.db", "rooms.db-wal", "rooms.db-shm", "journal", "figures", "backups")
SEED = "0123456789abcdef" * 4


def told(*lines):
    """Lines, as the keeper is asked for them."""
    return {"ask": "do", "lines": list(lines)}


def bring(kind, label, body):
    """A list, as the keeper is asked for it."""
    return {"ask": "import", "kind": kind, "label": label, "body": base64.b64encode(body.encode()).decode()}


PEOPLE = """\
person,name,key,home
T1,Tim Tan,aaaaaaaaaaaaaaa1,A-1
T2,Tom Tao,aaaaaaaaaaaaaaa2,A-2
N,Nia Ng,aaaaaaaaaaaaaaa3,
"""
# The kinds of lines, in the order of a year. What the stand-in does not know is marked.
YEAR = [
    (told("room K1"), True),
    (bring("rooms", "rooms-1", "room\n" + "".join(f"A-{number}\n" for number in range(40))), True),
    (bring("people", "people-1", PEOPLE), False),
    (told("person P1 bbbbbbbbbbbbbbbb1 Pia Po"), True),
    (told("room K2", "room K3", "person P2 bbbbbbbbbbbbbbbb2 Pim Pu", "room K4"), True),
    (told("home P1 K1"), False),
    (told("leave P1"), False),
    (told("remove P1"), False),
    (told("grade N 3"), False),
    (bring("grades", "grades-1", "person,grade\nT1,2\nT2,0\n"), False),
    (told("open"), True),
    (told("choose T1 A-2 A-3"), False),
    (told("choose T1 A-4 A-5"), False),
    (bring("choices", "choices-1", "person,choices\nT2,A-7 A-8\nN,A-1 A-2\n"), False),
    (told("shut K2"), False),
    (told("withdraw P2"), False),
    ({"ask": "correct", "person": "P2", "name": "Pim Po", "key": "c" * 16}, True),
    (told("going T2"), False),
    (told("close"), True),
    ({"ask": "draw", "seed": SEED}, False),
    (told("run"), False),
    (told("publish"), False),
    (told("settle"), False),
    ({"ask": "blank", "label": "rooms-1"}, True),
    ({"ask": "backup"}, True),
]


def content(stand):
    """All that the office's file says."""
    with copies_of(stand).copied() as copy, contextlib.closing(sqlite3.connect(copy)) as database:
        if database.execute("PRAGMA integrity_check").fetchall() != [("ok",)]:
            return "damaged"
        tables = [
            name for name, in database.execute("SELECT name FROM sqlite_master WHERE type = 'table' ORDER BY name")
        ]
        return {name: sorted(database.execute(f"SELECT * FROM {name}").fetchall(), key=repr) for name in tables}


def servers_of(stand):
    """The servers and other programs of the keeper's that work on the office's file. A line by hand is none of these."""
    lines = [command_of(process.name) for process in Path("/proc").glob("[0-9]*")]
    return [line for line in lines if str(stand.file) in line and not {"serve", "lines", "import"}.isdisjoint(line)]


def killed(stand, job, delay):
    """Sends a line, kills the keeper after a while, starts it again, and gives the answer, if there was one."""
    answers = []

    def clerk():
        with contextlib.suppress(OSError, ValueError):
            answers.append(stand.ask(**job))

    thread = threading.Thread(target=clerk)
    thread.start()
    time.sleep(delay)
    stand.kill_keeper()
    thread.join()
    until(lambda: not servers_of(stand), 30, "the end of what the keeper had started")
    stand.start()
    return answers[0] if answers else {}


def is_noted(stand, entries):
    """Whether the journal has a new change, and each change has its end."""
    now = stand.ask(ask="journal", last=10_000)["journal"]
    begun = [one["n"] for one in now if "n" in one and "line" in one]
    ended = [one["n"] for one in now if "n" in one and "answer" in one]
    return len(now) > len(entries) and set(begun) == set(ended)


def accepted(answer):
    """Whether a line was answered as done."""
    return bool(answer.get("done") or any(word in answer for word in ("name", "blanked", "corrected")))


def states_between(stand, job, name):
    """What the office is after each line of several but the last. The copy with this name was made before them."""
    asked = [told(line) for line in job.get("lines", [])[:-1]]
    if "name" in job and "key" in job:  # of a correction of both, the key is the first line
        asked = [{part: job[part] for part in ("ask", "person", "key")}]
    if asked:
        stand.ask(ask="back", name=name)
    return [content(stand) for one in asked if stand.ask(**one)]


def kill_in(stand, job, kills):
    """One kind of line: once as it should be, and then killed at moments that are spread over the time that it took."""
    before, name = content(stand), stand.ask(ask="backup")["name"]
    began = time.monotonic()
    answer = stand.ask(**job)
    took = time.monotonic() - began
    if not accepted(answer):
        check(f"{job} is accepted", False, answer)
    after, stood = content(stand), 0
    between = states_between(stand, job, name)
    for number in range(kills):
        if content(stand) != before:
            answer = stand.ask(ask="back", name=name)
            check("    the way back", "name" in answer and content(stand) == before, answer)
        entries = stand.ask(ask="journal", last=10_000)["journal"]
        answer = killed(stand, job, took * (number + 0.5) / kills)
        found = content(stand)
        if found not in (before, *between, after) or accepted(answer) and found != after:
            check(f"{job}: before it, after it or some of its lines, and with what was answered", False, (answer, found))
        if found != before:
            stood += 1
            check("    what is in effect is in the journal", is_noted(stand, entries))
    if content(stand) != after:
        if content(stand) != before:  # some of the lines are in effect
            stand.ask(ask="back", name=name)
        answer = stand.ask(**job)
        if not accepted(answer):
            check(f"{job} is accepted afterwards", False, answer)
    said = (
        "; ".join(job["lines"])
        if "lines" in job
        else " ".join(str(job.get(key)) for key in ("ask", "kind", "label") if key in job)
    )
    check(
        f"killed {kills} times within {1000 * took:.0f} ms of `{said}`: {stood} times it was in effect",
        content(stand) == after,
    )


def try_kills(program, kills=KILLS):
    """The year, with so many kills in each kind of line."""
    known = Path(program).name != "standin.py"
    with Stand(program) as stand:
        stand.start()
        for job, simple in YEAR:
            if known or simple:
                kill_in(stand, job, kills)
        name = stand.ask(ask="backup")["name"]
        stand.ask(ask="do", lines=["room BACK"])
        kill_in(stand, {"ask": "back", "name": name}, kills)
        held = b"".join(one.read_bytes() for one in stand.data.glob("rooms.db*"))
        check("nothing of a list that was blanked is in the office's file", b"A-0\nA-1\nA-2\n" not in held)
        left = [one.name for one in stand.data.iterdir() if one.name not in KNOWN]
        check("no file is left over", not left, left)
        parts = list((stand.data / "backups").glob(".part*"))
        check("and no copy half made", not parts, parts)


if __name__ == "__main__":
    if len(sys.argv) != 2:
        sys.exit("usage: /usr/bin/python3 deploy/trial/kills.py PROGRAM")
    try_kills(sys.argv[1])

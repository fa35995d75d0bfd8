"""What the audit refuses, and how it takes what people give it: /usr/bin/python3 deploy/trial/refused.py PROGRAM.

Records that are none are refused by name; a record or a seed in another form is understood. On the office's page, nobody
is led on from results that the audit refuses, and no room off a list counts as kept.
"""

import contextlib
import os
import re
import shutil
import signal
import sqlite3
import subprocess
import sys
import tempfile
from pathlib import Path

# The repository stays as it is.
sys.dont_write_bytecode = True

# pylint: disable=wrong-import-position  # nothing may be written before
from office_requests import Page
from stand import OFFICE, PYTHON, Stand, check

PEOPLE, ROOMS = ["P1", "P2", "P3"], ["A-1", "A-2", "A-3", "A-4", "A-5"]
LISTS = {"P1": "A-2 A-4", "P2": "A-1"}
SEED = "30bab8be" * 8
MAIN = re.compile(r'class="button main" href="([^"]+)"')
OTHER = "The independent audit finds other results."


def audit(record, *words):
    """What audit.py says of a record from standard input: its status, and its words."""
    done = subprocess.run([PYTHON, "-B", OFFICE / "audit.py", *words], input=record, capture_output=True, check=False)
    return done.returncode, done.stdout.decode() + done.stderr.decode()


def try_alone(record):
    """Without the file that reads the record the audit names that file, and says nothing of the round."""
    with tempfile.TemporaryDirectory() as folder:
        alone = shutil.copy(OFFICE / "audit.py", folder)
        done = subprocess.run([PYTHON, "-B", alone, "-"], input=record, capture_output=True, check=False)
        check("an audit without its other file names it", done.returncode == 2 and not done.stdout
              and b"audit_record.py is missing" in done.stderr and b"Traceback" not in done.stderr, done)


def try_seeds(record):
    """The headline says against which seed the draw was checked."""
    bare = re.sub(rb"# seed .*", b"# No seed of the draw is recorded.", record)
    status, said = audit(bare, "-")
    check("without a seed the headline is that the draw was not checked",
          status == 3 and "3 people: the draw was not checked" in said.splitlines()[0] and "names no seed" in said, said)
    status, said = audit(record, "-")
    check("with the record's own seed the headline says so",
          status == 0 and "if the witnesses' seed is the one that the record names" in said.splitlines()[0], said)
    for words in (["-", "--seed", SEED], ["--seed", SEED, "-"], ["--seed", f" {' '.join(re.findall('.{8}', SEED))}\n", "-"],
                  ["-", f"--seed={SEED.upper()}", "P1"], ["P1", "--seed", SEED, "-"], ["P1", "-", "P2", "--seed", SEED]):
        status, said = audit(record, *words)
        check(f"the arguments {words}", status == 0 and said.splitlines()[0].endswith("3 people: all is right")
              and ("So P1 got" in said) == ("P1" in words), said)
    status, said = audit(bare, "-", "--seed", "f" * 64)
    check("another seed is named", status == 1 and f"not those of the seed {'f' * 64}" in said, said)
    status, said = audit(record, "-", "--seed", SEED[1:])
    check("a seed that is none is named", status == 2 and "the seed cannot be read" in said, said)


def try_records(record):
    """Records in another form are understood, and those that are none are refused by name."""
    for what, form in (("a byte order mark", b"\xef\xbb\xbf" + record), ("lines of Windows", record.replace(b"\n", b"\r\n")),
                       ("both", b"\xef\xbb\xbf" + record.replace(b"\n", b"\r\n"))):
        status, said = audit(form, "-", "--seed", SEED)
        check(f"a record with {what}", status == 0 and "all is right" in said, said)
    drawn = next(line for line in record.splitlines(keepends=True) if line.startswith(b"draw "))
    for what, old, new, why in (
            ("two draws", drawn, drawn * 2, "a second line `draw`"),
            ("a second draw after the rooms are given", b"\nrun\n", b"\nrun\n" + drawn, "a second line `draw`"),
            ("a word that is none", drawn[:9], b"draw zzzz", "a word of a draw has to have 16 signs"),
            ("a word too few", drawn, drawn[:-18] + b"\n", "3 people take part, and the draw has 2 words"),
            ("no opening", b"\nopen\n", b"\n", "it has no line `open`"),
            ("no closing", b"\nclose\n", b"\n", "it has no line `close`"),
            ("no draw", drawn, b"", "it has no line `draw`"),
            ("two seeds", b"# seed ", f"# seed {'0' * 64}\n# seed ".encode(), "a second line `# seed`"),
            ("no head", b"# round 1 ran\n", b"", "it has no line `# round`")):
        assert record.count(old) == 1, (old, record)
        status, said = audit(record.replace(old, new), "-", "--seed", SEED)
        check(f"a record with {what} is refused by name", status == 2 and f"- cannot be read: {why}" in
              re.sub(r"line \d+: (there is )?", "", said), said)


def try_signs(record):
    """By signs that a terminal carries out, a record cannot replace the report on it."""
    signs = "\x1b[1A\x1b[2K\r\u009b1A\u202e\x08".encode()
    for what, old, new in (("the journal", b"# round 1 ran\n", b"# round 1 ran\n# journal: " + signs * 9 + b"all is right\n"),
                           ("an identifier", b"P3", b"P3" + signs)):
        status, said = audit(record.replace(old, new), "-", "P1", "--seed", "f" * 64)
        check(f"{what} of a record writes no sign that a terminal carries out", status in (1, 2) and "[1A" in said and
              all(sign.isprintable() for sign in said.replace("\n", "")), said)


def try_unread(name, *words):
    """A command whose reader has gone, as by `| head`, says nothing of it, and ends with the status of a broken pipe."""
    reader, writer = os.pipe()
    os.close(reader)
    done = subprocess.run([PYTHON, "-B", OFFICE / name, *words], stdout=writer, stderr=subprocess.PIPE, check=False)
    os.close(writer)
    check(f"{name} whose words nobody reads ends quietly", (done.returncode, done.stderr) == (-signal.SIGPIPE, b""), done)


def swap(stand, results):
    """Puts other results into the office's file, while nothing runs."""
    stand.stop_keeper()
    with contextlib.closing(sqlite3.connect(stand.file)) as database:
        database.execute("UPDATE result SET room = NULL")
        for person, room in results.items():
            database.execute("UPDATE result SET room = ? WHERE person = ?", (room, person))
        database.commit()
    stand.start_keeper()  # the server does not start over such a file


def try_page(stand, page):
    """Results that the audit refuses: P1 keeps no room, and has one off the list."""
    check("right results lead on to publishing", MAIN.findall(page.get("/office/")[2]) == ["/office/step/publish"] and
          MAIN.findall(page.get("/office/results")[2]) == ["/office/step/publish"])
    swap(stand, {"P1": "A-5", "P2": "A-2", "P3": "A-3"})
    for path in ("/office/", "/office/results"):
        text = page.get(path)[2]
        check(f"results that the audit refuses: {path} leads on to nothing", OTHER in text and not MAIN.findall(text), text)
    check("the question before publishing begins with it", OTHER in page.get("/office/step/publish")[2])
    text = page.get("/office/results")[2]
    rows = [row for row in text.split("<tr>") if 'href="/office/person/P1"' in row]
    check("a room off the list is called so", "a room off the list" in rows[0] and "keeps" not in rows[0], rows)
    check("and does not count as kept", "Keep their room</dt><dd>2</dd>" in text and
          "Have a room that they did not list</dt><dd>1</dd>" in text, text)
    csv = page.get("/office/export/results.csv")[2]
    check("nor in the list of results", re.search(r"^P1,.*,A-1,A-5,a room off the list$", csv, re.M), csv)
    text = page.get("/office/person/P1")[2]
    check("the person's page says what the office has, and what it should have",
          "P1 got A-2, choice 1." in text and "But the office has A-5 for P1." in text, text)


def try_refused(program):
    """All of it."""
    with Stand(program) as stand:
        stand.fill(ROOMS, PEOPLE)
        stand.start()
        stand.start_page()
        stand.start_proxy()
        page = Page(stand)
        for number in (1, 2, 3):
            stand.office(f"home P{number} A-{number}")
        stand.office("open")
        for person, rooms in LISTS.items():
            stand.office(f"choose {person} {rooms}")
        stand.office("close")
        page.form("/office/seed", {"way": "seed", "text": SEED}, page="/office/draw")
        page.form("/office/draw", page="/office/draw")
        stand.office("run")
        record = page.form("/office/record", page="/office/record")[2].encode()
        try_alone(record)
        for name in ("audit.py", "audit_record.py"):
            check(f"the page has {name}, which it hands out", page.get(f"/office/{name}")[2] == (OFFICE / name).read_text("utf-8")
                  and f'href="/office/{name}"' in page.get("/office/record")[2])
        try_seeds(record)
        try_records(record)
        try_signs(record)
        (stand.folder / "round.txt").write_bytes(record)
        try_unread("audit.py", stand.folder / "round.txt", *PEOPLE)
        try_unread("record.py", stand.file)
        try_page(stand, page)


if __name__ == "__main__":
    if len(sys.argv) != 2 or not Path(sys.argv[1]).exists():
        sys.exit("usage: /usr/bin/python3 deploy/trial/refused.py PROGRAM")
    try_refused(sys.argv[1])

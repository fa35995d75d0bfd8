"""The keeper and the clerk's command: what is refused disturbs nobody, what is accepted is in the journal, all lines in
a bundle take effect or none, keys are seen nowhere, and there is a way back.

This run alone, also over standin.py in place of the program: /usr/bin/python3 deploy/trial/keeping.py PROGRAM
"""

import contextlib
import json
import re
import socket
import sys
import threading
import time
from pathlib import Path

from hanging import try_hanging
from stand import Stand, check, until
from watcher import Watcher

KEY = "abcdefabcdefabcdefabcdefabcdef99"
OTHER = "0011223344556677889900aabbccddee"
LONG_NAME = "Papadimitrakopoulos Maria"
# What the command refuses on its own command line.
ON_COMMAND_LINES = (
    ("do", "person", "R9", KEY, "Ann Li"),
    ("do", f" person R9 {KEY} Ann Li"),
    ("do", "me", KEY),
    ("do", "persn", "R9", KEY),
    ("do", "home", "R9", KEY.upper()),
    ("do", "draw", KEY),
    ("import", KEY, "l-1", "-"),
    ("import", "people", KEY, "-"),
    ("export", KEY),
    ("view", KEY),
    ("key", KEY),
    ("blank", KEY),
    ("journal", KEY),
    ("name", "R9", "Ann", KEY),
    ("name", KEY, "Ann"),
    (KEY,),
)


def quiet_lines(stand):
    """Questions and refusals leave the server alone; what is accepted stops it once."""
    server = stand.server()
    check(
        "a line is refused as the program refuses it",
        stand.command("do", "leave", "NOBODY")[0] == 1
        and stand.command("do", "nonsense", "x")[:2] == (2, "not understood\n"),
    )
    check("a question is answered", stand.office("round").startswith("round 0 idle"))
    check("no option gets through", stand.command("do", "room", "--db=/tmp/x.db")[0] == 2)
    check("nor a second line", stand.ask(ask="do", lines=["room X\nroom Y"])["answers"] == [["not understood\n", 2]])
    check("neither stopped the server", stand.server() == server)
    check("a line is accepted", stand.office("room H1") == "ok\n")
    check("and stopped it", stand.server() != server)
    rooms = stand.folder / "a list's rooms.csv"
    rooms.write_text("room\nH2\nH3\n", encoding="utf-8")
    for turn in ("in", "in again, and answered as the first time"):
        check(
            f"a list is brought {turn}",
            stand.script("rooms-office", "import", "rooms", "rooms-1", str(rooms)) == "added 2\n",
        )
    stand.until_listening(stand.server_port)
    server, answer = stand.server(), stand.command("import", "rooms", "rooms-1", str(rooms))
    check("and again without a stop", answer[:2] == (0, "added 2\n") and stand.server() == server, answer)
    check("with a note that nothing was imported", "nothing came in now" in answer[2], answer)
    answer = stand.command("import", "rooms", "rooms-2", "-", given="room\n\nH4\nH2\n")
    check("a bad list is refused", answer[:2] == (1, "refused 15 BadRecord 2 refusal 4\n"), answer)
    check("and its row in the spreadsheet is named", "record 2 is row 4 of the list, H2\n" in answer[2], answer)
    missing = stand.command("import", "rooms", "rooms-3", "/nowhere")
    check(
        "a list that is not there is named",
        missing[:2] == (3, "unavailable\n") and "No such file" in missing[2],
        missing,
    )


def hidden_keys(stand):
    """A key is refused on the command line, taken on standard input, and seen in no process and no other file."""
    for words in ON_COMMAND_LINES:
        told = stand.command(*words)
        check("a line with a key is not taken from the command line", told[0] == 2 and "do -" in told[2], told)
    with Watcher(KEY, OTHER, LONG_NAME.split()[0]) as watcher:
        check(
            "a person is added by standard input",
            stand.script("rooms-office", "do", "-", given=f"person R9 {KEY} Ann Li\n") == "ok\n",
        )
        told = stand.command("do", "-", given=f"person R8 {KEY} Bea Ma\n")
        check("nobody else may have the key", told[:2] == (1, "refused 6 KeyInUse\n"), told)
        told = stand.script("rooms-office", "do", "-", given=f"me {KEY}\n")
        check("the answer is about the key's owner", told.startswith("person R9\nname Ann Li\n"), told)
        told = stand.command("do", "-", given=f"me {OTHER}\n")
        check("and of a key of nobody that it is unknown", told[:2] == (1, "refused 2 UnknownPerson\n"), told)
        slips = [f"person R8 {KEY.upper()} Bea", f"persn R8 {KEY} Bea", f"home R8 {KEY}", f"person {KEY} R8 Bea"]
        slips += [f"person R8 {KEY} {KEY}", f"person R8 {OTHER} Bea {KEY}", f"draw {KEY}", f"import rooms {KEY}"]
        for line in slips:
            told = stand.command("do", "-", given=f"{line}\n")
            check("a line with a slip is not understood", told[:2] == (2, "not understood\n"), told)
        told = stand.command("do", "-", given=f"person R8 {OTHER} Bea {KEY}\n")
        check("and of a name that may be a key the clerk reads why", "a word of the name may be a key" in told[2], told)
        told = stand.command("do", "-", given=f"person R8 {OTHER} Bea Ma\nperson R7 {'c' * 16} Cy Lo\n")
        check("of several lines none is taken for the only one", told[:2] == (2, "") and "rooms-office lines" in told[2]
              and "Bea" not in stand.office("people"), told)
        for job in (
            {"ask": "import", "kind": KEY, "label": "l-1", "body": ""},
            {"ask": "import", "kind": "rooms", "label": KEY, "body": ""},
            {"ask": "correct", "person": "R9", "name": f"Ann {KEY}"},
        ):
            answer = stand.ask(**job)
            check(f"a key is refused as {list(job)[-2]} of {job['ask']}", "may be a key" in answer["fault"], answer)
        answer = stand.ask(ask="export", kind=KEY)
        check("and as the kind of an export", answer["answers"] == [["not understood\n", 2]], answer)
        told = stand.command("do", "-", given=f"person R6 {'b' * 16} {LONG_NAME}\n")
        check("a long word of a name is none, but hidden as if it were", told[:2] == (0, "ok\n"), told)
    check(
        f"no process had a key, seen at {watcher.looks} looks", watcher.looks > 20 and not watcher.seen, watcher.seen
    )
    check(
        "me changed nothing", stand.script("rooms-office", "do", "-", given=f"me {KEY}\n").startswith("person R9\n")
    )
    for place in (stand.file.with_name("journal"), stand.folder / "keeper.log"):
        check(
            f"{place.name} has no key and no name",
            not re.search(f"{KEY}|Ann Li", place.read_text(encoding="utf-8"), re.I),
        )
    check("the name is whole", LONG_NAME in stand.office("people"))
    check("the journal says who was added", "person R9 (key) (name)  ->  ok" in stand.script("rooms-office", "journal"))
    left = list((stand.scratch / "copies").iterdir())
    check("no copy is left in memory", not left, left)


def bundles(stand):
    """All of many lines take effect or none, under one stop."""
    starts = stand.log("keeper").count("listening on")
    told = stand.command("lines", given="# three rooms\nroom L1\n\nroom L2\nrooms\nroom L3\n")
    check(
        "many lines are answered each",
        told[0] == 0 and told[1].startswith("ok\nok\n") and told[1].endswith("ok\n"),
        told,
    )
    stand.until_listening(stand.server_port)
    check("with one stop", stand.log("keeper").count("listening on") == starts + 1)
    told = stand.command("lines", given="room L4\nroom L1\nroom L5\n")
    check(
        "one that is refused refuses all",
        told[:2] == (1, "ok\nrefused 4 DuplicateRoom\n") and "line 2" in told[2],
        told,
    )
    check("none of them took effect", "L4" not in stand.office("rooms"))
    told = stand.command("lines", given=f"room L6\nperson R7 {OTHER} Cy Fu\nme {OTHER}\n")
    check(
        "lines with keys are taken among them",
        told[:2] == (0, "ok\nok\n" + told[1].split("\n", 2)[2]) and "person R7" in told[1],
        told,
    )
    again = stand.script("rooms-office", "do", "-", given=f"me {OTHER}\n")
    check("and the key is the person's own", again.startswith("person R7\n"), again)
    told = stand.command("lines", given="room L7\npeople\n")
    check("many lines may end with a question", told[0] == 0 and "Cy Fu" in told[1], told)
    noted = stand.file.with_name("journal").read_text(encoding="utf-8")
    check("the journal has none of these names", "room L7; people" in noted and not re.search("Cy Fu|Ann Li", noted))


def journal(stand):
    """What a clerk notes is kept apart from what the keeper did, and names of an earlier journal are blanked."""
    stand.ask(ask="note", line="close")
    stand.ask(ask="note", line=f"draw $(rooms words --seed {KEY}{KEY})")
    last = stand.ask(ask="journal", last=2)["journal"]
    check("what a clerk notes is no line", all("note" in entry and "line" not in entry for entry in last), last)
    check("and is shown as noted", "noted: close\n" in stand.script("rooms-office", "journal", "2"))
    with open(stand.file.with_name("journal"), "a", encoding="utf-8") as held:
        held.write('{"n": "0-0-1", "answer": "person home name\\nP0 none Ann Li", "status": 0}\n')
    check("an earlier journal is blanked", stand.script("rooms-office", "blank-journal") == "blanked 1\n")
    now = stand.file.with_name("journal").read_text(encoding="utf-8")
    check("and has no name", "Ann Li" not in now and "noted: close" in stand.script("rooms-office", "journal"))
    check("which is in the journal", stand.ask(ask="journal", last=1)["journal"][0].get("answer") == "1 lines")


def tried(stand):
    """Lines are tried on a copy, up to the first that is not accepted, and nothing is changed."""
    server, before = stand.server(), stand.ask(ask="view")
    told = stand.command("try", given="# a round\nopen\nclose\nclose\nopen\n")
    check("lines are tried", told[0] == 1 and re.fullmatch("round 1 open\nclosed \\d+\nrefused 1 .*\n", told[1]), told)
    check("the one that is not accepted is named", "line 4 would not be accepted" in told[2], told)
    check("nothing is changed", stand.ask(ask="view") == before and stand.server() == server)
    check("there is no list to export", stand.script("rooms-office", "export", "choices") == "person,choices\n")


def corrected(stand, is_program):
    """A name and a key are corrected while a round is open. The old key is one of nobody then."""
    new = "fedcba9876543210fedcba9876543210"
    stand.office("open")
    told = stand.command("name", "R9", "Anna", "Lí")
    check("a name is corrected", told[:2] == (0, "Anna Lí\n"), told)
    told = stand.command("name", "R9", " Anna  Maria", "Lí ")
    check("a name has one space in place of many, as on the page", told[:2] == (0, "Anna Maria Lí\n"), told)
    told = stand.command("name", "R9", " ")
    check("a name of spaces is none, and changes nothing", told[0] == 2 and not told[1], told)
    for words in (("name", "NOBODY", "No", "One"), ("key", "NOBODY")):
        told = stand.command(*words)
        check(f"{words[0]} of nobody is refused as the line is", told[:2] == (1, "refused 2 UnknownPerson\n"), told)
    stand.command("name", "R9", "Anna", "Lí")
    told = stand.command("key", "R9")
    check("a new key is made", told[0] == 0 and re.fullmatch("[0-9a-f]{32}\n", told[1]), told)
    mine = stand.script("rooms-office", "do", "-", given=f"me {told[1]}")
    check("it is the person's own", mine.startswith("person R9\nname Anna Lí\n"), mine)
    told = stand.command("do", "-", given=f"me {KEY}\n")
    check("and the old one is nobody's", told[:2] == (1, "refused 2 UnknownPerson\n"), told)
    check("a key can be given", stand.ask(ask="correct", person="R7", key=new)["corrected"] == "R7")
    answer = stand.ask(ask="correct", person="R9", key=new)
    check("but not another person's", "Another person has this key. Choose another key." in answer["fault"], answer)
    wrong = [{"person": "NOBODY", "name": "No One"}, {"person": "R9"}]
    wrong += [{"person": "R9", "name": "Two  Spaces"}, {"person": "R9", "key": "short"}] if is_program else []
    for values in wrong:
        check(f"{values} is refused", "fault" in stand.ask(ask="correct", **values))
    noted = stand.file.with_name("journal").read_text(encoding="utf-8")
    check("the journal has neither", "correct R9: name" in noted and not re.search(f"Lí|{new}", noted), noted)
    stand.office("cancel")


def ways_back(stand):
    """A copy is put back, and the way forth as well."""
    before = stand.office("rooms")
    name = stand.script("rooms-office", "backup").strip()
    stand.office("room B1")
    told = stand.command("back", name)
    check("a copy is put back", told[0] == 0 and stand.office("rooms") == before, told)
    stand.until_listening(stand.server_port)
    check("and the server is there again", stand.server() is not None)
    check("and forth again", stand.command("back", told[1].strip())[0] == 0 and "B1" in stand.office("rooms"))
    listed = stand.script("rooms-office", "backups")
    check("the copies are listed with their reasons", f"before back {name}, by root" in listed, listed)
    told = stand.command("back", "20200101T000000Z")
    check(
        "a copy that is not there is named", told[:2] == (3, "unavailable\n") and "there is no copy" in told[2], told
    )
    answer = stand.ask(ask="back", name=name, seen="round 7 open")
    check("nobody goes back from where they are not", "has gone on" in answer["fault"], answer)


def damaged(stand):
    """An office that was damaged is put right from a copy."""
    before = stand.office("rooms")
    name = stand.script("rooms-office", "backup").strip()
    stand.stop_keeper()
    for end in ("-wal", "-shm"):
        stand.file.with_name(stand.file.name + end).unlink(missing_ok=True)
    stand.file.write_bytes(b"no office at all" * 1000)
    stand.start_keeper()
    time.sleep(1)
    told = stand.command("do", "room", "D1")
    check("a damaged office takes no line", told[0] != 0, told)
    told = stand.command("back", name)
    check("and is put right from a copy", told[0] == 0 and stand.office("rooms") == before, told)
    stand.until_listening(stand.server_port)
    kept = stand.data / "backups" / told[1].strip() / stand.file.name
    check("the damaged one is kept", kept.read_bytes().startswith(b"no office at all"))


def blanked(stand):
    """A list's bytes go, its label stays taken, and the program takes the office."""
    rooms = stand.office("rooms")
    check(
        "the kept list is in the file",
        any(b"room\nH2\nH3\n" in one.read_bytes() for one in stand.data.glob("rooms.db*")),
    )
    check("a list is blanked", stand.script("rooms-office", "blank", "rooms-1") == "blanked rooms-1\n")
    stand.until_listening(stand.server_port)
    check(
        "its bytes are in no file of the office",
        not any(b"H2\nH3\n" in one.read_bytes() for one in stand.data.glob("rooms.db*")),
    )
    for body in ("room\nH2\nH3\n", "", "room\nH77\n"):
        told = stand.command("import", "rooms", "rooms-1", "-", given=body)
        is_told = told[:2] == (1, "refused 14 ListDiffers\n") and "another label" in told[2]
        check(f"{body!r} under its label is another list", is_told, told)
    check("the rooms are as before", stand.office("rooms") == rooms)
    told = stand.command("blank", "no-such")
    is_told = told[:2] == (1, "refused 25 UnknownLabel\n") and "No list has come in" in told[2]
    check("a label that nobody gave is named", is_told, told)


def erased(stand):
    """Of a person who came by a list, was removed, and whose list was blanked, nothing is left in the office's file."""
    secret, name = "fedcba98765432100123456789abcdef", "Zoe Zander"
    people = f"person,name,key,home\nZ1,{name},{secret},H2\n"
    told = stand.command("import", "people", "people-1", "-", given=people)
    check("a person comes by a list", told[1] == "added 1\n", told)
    told = stand.command("lines", given="leave Z1\nremove Z1\n")
    check("and is removed", told[1] == "ok\nok\n", told)
    stand.script("rooms-office", "blank", "people-1")
    stand.until_listening(stand.server_port)
    bytes_now = b"".join(one.read_bytes() for one in stand.data.glob("rooms.db*"))
    check("nothing of them is left in the file", secret.encode() not in bytes_now and name.encode() not in bytes_now)
    check("nor in the journal", not re.search(f"{secret}|{name}", stand.file.with_name("journal").read_text("utf-8")))
    copies = b"".join(one.read_bytes() for one in stand.data.glob("backups/*/rooms.db"))
    check("but a kept copy of before still has them", secret.encode() in copies)


def two_clerks(stand):
    """What one clerk saw is no longer so once another one was at work; changes at once are all made."""
    stand.office("open")
    check("the first clerk cancels", stand.ask(ask="do", lines=["cancel"], seen="round 1 open")["done"])
    answer = stand.ask(ask="do", lines=["cancel"], seen="round 1 open")
    check("the second one's cancel is not made", not answer.get("done"), answer)
    stand.office("open")
    phase = stand.ask(ask="view")
    answer = stand.ask(ask="do", lines=["close"], seen="round 1 open")
    check(
        "nor a step of another round" if phase["number"] == 2 else "nor is any",
        phase["number"] == 1 or "has gone on" in answer["fault"],
        answer,
    )
    stand.office("cancel" if stand.ask(ask="view")["phase"] == "open" else "round")
    starts, answers = stand.log("keeper").count("listening on"), []
    clerks = [
        threading.Thread(target=lambda number=number: answers.append(stand.ask(ask="do", lines=[f"room Z{number}"])))
        for number in range(12)
    ]
    began = time.monotonic()
    for clerk in clerks:
        clerk.start()
    for clerk in clerks:
        clerk.join()
    took = time.monotonic() - began
    stand.until_listening(stand.server_port)
    check("12 changes at once are all made", all(answer.get("done") for answer in answers), answers)
    print(f"      in {took:.1f} s, with {stand.log('keeper').count('listening on') - starts} stops of the server")


NONSENSE = [
    b"\n", b"null\n", b"[]\n", b"{}\n", b"\xff\xfe\n", b'{"ask": 7}\n', b'{"ask": []}\n', b'{"ask": "do"}\n',
    b'{"ask": "do", "lines": "room X"}\n', b'{"ask": "do", "lines": [1]}\n', b'{"ask": "do", "lines": []}\n',
    b'{"ask": "do", "lines": ["room X"], "seen": 5}\n', b'{"ask": "do", "lines": ["room X"], "saw": 5}\n',
    b'{"ask": "do", "lines": ["room X"], "saw": ["list", [1], "x"]}\n',
    b'{"ask": "do", "lines": ["room X"], "saw": [["list"], [], "x"]}\n', b'{"ask": "journal", "last": "many"}\n',
    b'{"ask": "journal", "last": null}\n', b'{"ask": "journal", "last": 1e999}\n', b'{"ask": "copy"}\n',
    b'{"ask": "journal", "last": -1}\n', b'{"ask": "back", "name": "../../etc"}\n', b'{"ask": "blank", "label": 1}\n',
    b'{"ask": "import", "kind": "rooms", "label": "l-9", "body": "?"}\n', b'{"ask": "draw", "seed": "0"}\n',
    b"[" * 200_000 + b"\n", b'{"ask": "' + b"x" * 2_000_000 + b'"}\n',
]


def nonsense(stand):
    """Requests that are none are answered so, and the keeper stays."""
    server, keeper = stand.server(), stand.keeper.pid
    for request in NONSENSE:
        with socket.socket(socket.AF_UNIX) as connection:
            connection.settimeout(30)
            connection.connect(stand.environment["ROOMS_SOCKET"])
            with contextlib.suppress(BrokenPipeError):
                connection.sendall(request)
            answer = connection.makefile("rb").readline()
        if "fault" not in json.loads(answer or b"{}"):
            check(f"{request[:60]!r} is a fault", False, answer)
    alive = stand.keeper.poll() is None and stand.keeper.pid == keeper and stand.server() == server
    check(f"{len(NONSENSE)} requests that are none are answered so, and disturb nobody", alive)
    check("and leave no trace in the log", "Traceback" not in stand.log("keeper"), stand.log("keeper"))


def server_ends(stand):
    """A server that ends is started again."""
    for _ in range(3):
        server = stand.server()
        stand.kill()
        until(lambda gone=server: stand.server() not in (None, gone), 30, "another server")
    stand.until_listening(stand.server_port)
    check("a server that was ended is there again", stand.server() is not None)


def try_keeping(program):
    """The keeper and the command."""
    with Stand(program) as stand:
        stand.start()
        quiet_lines(stand)
        hidden_keys(stand)
        bundles(stand)
        journal(stand)
        tried(stand)
        ways_back(stand)
        blanked(stand)
        if Path(program).name != "standin.py":
            erased(stand)
        damaged(stand)
        two_clerks(stand)
        corrected(stand, Path(program).name != "standin.py")
        nonsense(stand)
        server_ends(stand)
    try_hanging(program)
    with contextlib.suppress(FileNotFoundError):
        check("nothing is left", not stand.folder.exists() and not stand.scratch.exists())


if __name__ == "__main__":
    if len(sys.argv) != 2:
        sys.exit("usage: /usr/bin/python3 deploy/trial/keeping.py PROGRAM")
    try_keeping(sys.argv[1])

"""rooms-office whose answer nobody reads, or that cannot be written: /usr/bin/python3 deploy/trial/unread.py PROGRAM.

Each command is asked as by `rooms-office view | head` that has ended. What was done stays done: the status is the same.
"""

import re
import subprocess
import sys
from pathlib import Path

# The repository stays as it is.
sys.dont_write_bytecode = True

# pylint: disable=wrong-import-position  # nothing may be written before
from stand import OFFICE, PYTHON, Stand, check

COMMAND = OFFICE / "rooms-office"
PEOPLE = [f"T{number:03}" for number in range(400)]
ROOMS = [f"A-{number:03}" for number in range(400)]
# Each command with what it reads, and the status that it ends with. The identifiers make long answers.
COMMANDS: list[tuple[list[str], str, int]] = [
    (["do", "people"], "", 0), (["do", "room", "B-1"], "", 0), (["do", "nonsense"], "", 2), (["do", "-"], "rooms\n", 0),
    (["lines"], "room B-2\npeople\n", 0), (["try"], "room B-3\npeople\n", 0),
    *[(["import", "rooms", "rooms-1", "-"], "room\nB-4\n", 0)] * 2, (["export", "people"], "", 0), (["export", "choices"], "", 0),
    (["view"], "", 0), (["view", "T001"], "", 0), (["view", "X9"], "", 1), (["backup"], "", 0), (["backups"], "", 0),
    (["watch"], "", 0), (["days"], "", 0), (["days", "300"], "", 0), (["about", "T001"], "", 0), (["name", "T001", "Tim"], "", 0),
    (["key", "T002"], "", 0), (["record"], "", 3), (["journal"], "", 0), (["forget", "T003"], "", 0), (["blank", "rooms-1"], "", 0),
    (["blank-journal"], "", 0), (["accounts"], "", 0), (["accounts", "same"], "", 0), (["back", "no-copy"], "", 3),
    (["--help"], "", 0), (["nonsense"], "", 2), (["view", "a" * 32], "", 2),
]
TRACE = re.compile("Traceback|Exception|BrokenPipe|Error")


def unread(stand, words, given, both=False):
    """Runs a command whose output nobody reads, with `both` also what it says beside it. Its status, and what it said."""
    with subprocess.Popen([PYTHON, COMMAND, *words], env=stand.environment, stdin=subprocess.PIPE, stdout=subprocess.PIPE,
                          stderr=subprocess.STDOUT if both else subprocess.PIPE) as process:
        assert process.stdout and process.stdin
        process.stdout.close()
        process.stdin.write(given.encode())
        process.stdin.close()
        said = process.stderr.read().decode() if process.stderr else ""
        return process.wait(), said


def in_the_help():
    """The commands that the help names."""
    text = COMMAND.read_text(encoding="utf-8").split('"""')[1]
    return {line.split()[1] for line in text.splitlines() if re.match("    rooms-office [a-z]", line)}


def try_unread(program):
    """Each command."""
    with Stand(program) as stand:
        stand.fill(ROOMS, PEOPLE)
        stand.start()
        named = {words[0] for words, _, _ in COMMANDS}
        check("this trial has each command of the help", in_the_help() <= named, in_the_help() - named)
        for words, given, wanted in COMMANDS:
            status, said = unread(stand, words, given)
            check(f"rooms-office {' '.join(words)[:40]}, with nobody who reads: status {wanted}, and no trace",
                  status == wanted and not TRACE.search(said), (status, said))
        journal = stand.ask(ask="journal", last=500)["journal"]
        for line in ("room B-1", "correct T001: name", "correct T002: key", "forget T003"):
            check(f"it was done all the same: {line}", any(entry.get("line") == line for entry in journal))
        both = [(["view"], 0), (["do", "close"], 1), (["nonsense"], 2), (["view", "a" * 32], 2), (["days", "200"], 0)]
        for words, wanted in both:
            status, _ = unread(stand, words, "", both=True)
            check(f"and with nobody who reads what it says beside it: {words[0]}, status {wanted}", status == wanted, status)
        with open("/dev/full", "wb") as full:
            done = subprocess.run([PYTHON, COMMAND, "view"], env=stand.environment, stdout=full, stderr=subprocess.PIPE,
                                  check=False)
        check("a full disk is named", done.returncode == 3 and b"could not be written: No space left" in done.stderr
              and not TRACE.search(done.stderr.decode()), done)
        name = next(name for name, _, why in stand.ask(ask="backups")["backups"] if "name" in why)
        status, said = unread(stand, ["back", name], "")
        names = {row[0]: row[1] for row in stand.ask(ask="view")["people"]}
        check("and back goes back", status == 0 and names["T001"] == "Person T001" and not TRACE.search(said), (status, said))


if __name__ == "__main__":
    if len(sys.argv) != 2 or not Path(sys.argv[1]).exists():
        sys.exit("usage: /usr/bin/python3 deploy/trial/unread.py PROGRAM")
    try_unread(sys.argv[1])

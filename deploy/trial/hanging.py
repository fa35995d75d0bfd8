"""A program that hangs: it is ended after its time, whether it has one line or several; and one that dies."""

import threading
import time

from stand import Stand, check

HANGING = """#!/usr/bin/python3
import os, subprocess, sys, time
if sys.argv[1] != "lines":
    os.execv({program!r}, [{program!r}, *sys.argv[1:]])
with subprocess.Popen([{program!r}, *sys.argv[1:]], stdin=subprocess.PIPE) as program:
    for line in sys.stdin.buffer:
        if line == b"room DIES\\n":
            program.kill()
            break
        time.sleep(60 if line == b"room SLOW\\n" and {file!r} in sys.argv or line == b"room STUCK\\n" else 0)
        program.stdin.write(line)
        program.stdin.flush()
"""


def told_at(stand, *lines):
    """Tells lines, each after so many seconds. Gives for each how long its answer took, and the answer."""
    answers = {}

    def clerk(line, wait):
        time.sleep(wait)
        began = time.monotonic()
        answer = stand.ask(ask="do", lines=[line])
        answers[line] = time.monotonic() - began, answer

    clerks = [threading.Thread(target=clerk, args=more) for more in lines]
    for one in clerks:
        one.start()
    for one in clerks:
        one.join()
    return answers


def try_hanging(program):
    """A program that hangs is ended after its time, and a person who waits too long for their turn reads why."""
    with Stand(program, ROOMS_LINE_SECONDS="8", ROOMS_TURN_SECONDS="4") as stand:
        hanging = stand.folder / "hanging"
        hanging.write_text(HANGING.format(file=str(stand.file), program=stand.program), encoding="utf-8")
        hanging.chmod(0o755)
        stand.environment["ROOMS_PROGRAM"] = str(hanging)
        stand.start()
        answers = told_at(stand, ("room SLOW", 0), ("room A", 1), ("room B", 7))
        slow, answer = answers["room SLOW"]
        check(
            "a program that hangs is ended",
            8 <= slow < 40 and "did not end within 8 seconds" in answer["fault"],
            answers,
        )
        took, answer = answers["room A"]
        told = "took too long" in answer["fault"]
        check("a person who waits too long reads why, before that", told and 4 <= took < slow - 1, answers)
        check("and who waits for a moment is served", answers["room B"][1].get("done"), answers)
        stand.until_listening(stand.server_port)
        server = stand.server()
        refused = stand.command("lines", given="room C\nroom STUCK\nroom D\n")
        check("of several lines, too, nothing is changed if one hangs on the copy", refused[0] == 3 and
              "did not end within 8.04 seconds" in refused[2] and "Nothing was changed" in refused[2], refused)
        died = stand.command("lines", given="room C\nroom DIES\nroom D\n")
        check("nor if the program dies there", died[0] == 3 and "ended before it had answered" in died[2] and
              "Nothing was changed" in died[2], died)
        check("without a stop of the server", stand.server() == server)
        slow = stand.command("lines", given="room C\nroom SLOW\nroom D\n")
        check("if one hangs in the office's file, the clerk reads what stands", slow[0] == 3 and
              "did not end within 8.04 seconds" in slow[2] and "1 of 3 lines were carried out before" in slow[2], slow)
        stand.until_listening(stand.server_port)
        rooms = [row[0] for row in stand.ask(ask="view")["rooms"]]
        check("the server is there again, and only what was answered took effect", rooms == ["B", "C"], rooms)
        check(
            "the journal says that the program was ended",
            "did not end within" in stand.script("rooms-office", "journal"),
        )

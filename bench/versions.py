"""Times two programs by turns; bench/versions.sh says what is timed."""

import os
import random
import shutil
import statistics
import subprocess
import sys
import tempfile
from pathlib import Path

from growth import instructions
from lists import COUNT, furnish, person_of, room_of

LISTED = 40
TURNS = 9


def timed(line, given=b""):
    """A program's answer, and what it took of a processor. It has to end well."""
    with tempfile.TemporaryFile() as told, tempfile.TemporaryFile() as input_file:
        input_file.write(given)
        input_file.seek(0)
        with subprocess.Popen(line, stdin=input_file, stdout=told) as run:
            _, ended, used = os.wait4(run.pid, 0)
            run.returncode = os.waitstatus_to_exitcode(ended)
        assert run.returncode == 0, line[:5]
        told.seek(0)
        return told.read(), used.ru_utime + used.ru_stime


def compare(what, lines, given=b"", prepare=lambda: None):
    """Times the programs by turns, and prints the medians. With valgrind it also counts the instructions of one run each."""
    took: list[list[float]] = [[], []]
    for _ in range(TURNS):
        answers = []
        for line, times in zip(lines, took):
            prepare()
            answer, seconds = timed(line, given)
            answers.append(answer)
            times.append(seconds)
        assert answers[0] == answers[1], what
    this, earlier = (statistics.median(times) for times in took)
    print(f"{what:20} this {this:6.3f} s, the earlier {earlier:6.3f} s, {this / earlier:4.2f} times", flush=True)
    if shutil.which("valgrind"):
        counts: list[float] = []
        for line in lines:
            prepare()
            counts.append(instructions(line, given.decode()))
        this, earlier = counts  # pylint: disable=unbalanced-tuple-unpacking  # two programs
        print(f"{'':20} this {this:6.2f} G, the earlier {earlier:6.2f} G instructions, {this / earlier:5.3f} times", flush=True)


def filled(program, folder):
    """An office whose round is open, with everybody's list."""
    folder.mkdir()
    return furnish(program, folder, COUNT * 4 // 5, LISTED)


def drawn_words():
    """A word for each person."""
    return [f"{random.Random(number).getrandbits(64):016x}" for number in range(COUNT)]


def main():
    """Compares the programs."""
    programs = sys.argv[1:3]
    given = subprocess.run(["bench/round.sh", str(COUNT)], check=True, capture_output=True).stdout
    compare("a round in memory", [[program, "rehearse"] for program in programs], given)
    with tempfile.TemporaryDirectory() as name:
        offices = [filled(program, Path(name) / str(number)) for number, program in enumerate(programs)]
        steps = [
            ("choose", ["choose", person_of(7), *map(room_of, range(LISTED))]),
            ("", ["close"]), ("", ["draw", *drawn_words()]),
            ("run", ["run"]), ("", ["publish"]), ("settle", ["settle"]),
        ]

        def start_again():
            for office in offices:
                for file in office.file.parent.glob("work.db*"):
                    file.unlink()
                for file in office.file.parent.glob("office.db*"):
                    shutil.copyfile(file, file.with_name(file.name.replace("office", "work")))

        for what, line in steps:
            if what:
                compare(f"{what} over a file", [
                    [office.program, "do", "--db", str(office.file.with_name("work.db")), *line] for office in offices],
                    prepare=start_again)
            for office in offices:
                timed([office.program, "do", "--db", str(office.file), *line])


if __name__ == "__main__":
    main()

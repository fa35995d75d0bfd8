"""Counts what many lines over a large office's file cost beside one line; bench/bundle.sh says what is measured."""

import sys
import tempfile
from pathlib import Path

from engine import copied
from growth import instructions
from lists import COUNT, furnish, person_of

LISTED = 40
MANY = 300


def counted(program, file, lines):
    """How many thousands of millions of instructions one `rooms lines` takes for these lines, on a copy of the file."""
    copy = copied(file, "counted.db")
    return instructions([program, "lines", "--db", str(copy)], "".join(f"{line}\n" for line in lines))


def main(program):
    """Compares one withdrawal with many, first with everybody housed, and then with nobody."""
    withdrawals = [f"withdraw {person_of(number)}" for number in range(MANY)]
    for what, housed in (("everybody housed", COUNT), ("nobody housed", 0)):
        with tempfile.TemporaryDirectory() as name:
            file = furnish(program, Path(name), housed, LISTED).file
            one, many = counted(program, file, withdrawals[:1]), counted(program, file, withdrawals)
        told = f"one withdrawal {one:7.3f} G instructions, {MANY} of them {many:7.3f} G, {many / one:5.2f} times"
        print(f"{what:18} {told}", flush=True)


if __name__ == "__main__":
    main(sys.argv[1])

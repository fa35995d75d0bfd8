"""walk.py CRATES LINE NOTHING: of two files of callgrind, the functions of CRATES that the first run calls more often than the
second, each behind its source file; then how many the first run calls at all, and how many these are. See walk.sh."""

import re
import sys
from collections import Counter
from pathlib import Path

CALLED = re.compile(r"c?fn=\((\d+)\)(?: (.*))?$")
# What stands in no source file of its own, or is part of the function around it.
MADE = re.compile(r"::(?:drop|fn)(?:::|$)|\+\+|Destruct")


def calls_of(file: str) -> Counter[str]:
    """How often each function was called, by its name."""
    names: dict[str, str] = {}
    calls: Counter[str] = Counter()
    called = ""
    with open(file, encoding="utf-8", errors="replace") as lines:
        for line in lines:
            if found := CALLED.match(line):
                number, name = found.groups()
                if name:
                    names[number] = name
                if line.startswith("cfn="):
                    called = names[number]
            elif line.startswith("calls="):
                calls[called] += int(line[len("calls="):].split()[0])
    return calls


def source_of(crates: Path, name: str) -> str | None:
    """The source file of a function: that of the longest front of its path that is a module. None for the kit's functions."""
    crate, *path = name.split("::")
    if not (crates / crate / "src").is_dir() or MADE.search(name):
        return None
    for end in range(len(path), 0, -1):
        file = f"{crate}/src/{'/'.join(path[:end])}.rt"
        if (crates / file).is_file():
            return file
    return next(f"{crate}/src/{it}" for it in ("lib.rt", "main.rt") if (crates / crate / "src" / it).is_file())


def functions_in(crates: Path, calls: Counter[str], before: Counter[str]) -> set[tuple[str, str]]:
    """The functions of the crates that were called more often than before, each with its file."""
    found: set[tuple[str, str]] = set()
    for name, count in calls.items():
        plain = re.split(r"::<|'\d+$", name)[0]
        file = source_of(crates, plain)
        if file and count > before[name]:
            found.add((file, plain.removeprefix(f"{file.split('/', 1)[0]}::")))
    return found


def counted(found: set[tuple[str, str]]) -> str:
    """How many functions these are, in how many files and crates."""
    files = {file for file, _ in found}
    return f"{len(found)} functions in {len(files)} files of {len({it.split('/', 1)[0] for it in files})} crates"


def main() -> None:
    crates = Path(sys.argv[1])
    with_line, without = map(calls_of, sys.argv[2:])
    found = functions_in(crates, with_line, without)
    for file, plain in sorted(found):
        print(f"{file}: {plain}")
    print(f"with the start of the program: {counted(functions_in(crates, with_line, Counter()))}")
    print(counted(found))


main()

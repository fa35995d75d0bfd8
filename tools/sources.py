"""What the tools that print contracts and definitions share: the crates, and how a crate's entries are chosen and printed."""

import re
import sys
from collections.abc import Iterator
from pathlib import Path

TOP = Path(__file__).resolve().parent.parent

IMPORT = re.compile(r"^(?:pub )?use Rattle\.(\w+)\.specs\.([\w.-]+)", re.M)

# Where a definition begins, and where a module whose arguments its definitions take.
DEFINITION = re.compile(r"( *)(?:abbrev pub|unfoldable pub|pub record|pub data) (\S+)")
MODULE = re.compile(r"module _ ")

# Lines of a file of definitions that define nothing: what it imports, and the files of its folder.
IMPORT_OR_FOLDER = re.compile(r"^(?:pub )?(?:use|mod) .*\n?", re.M)


def crate_names():
    """The crates of this repository, in the order of crates.txt: each after those that it uses."""
    listed = re.findall(r"^(\w+):", (TOP / "crates.txt").read_text(encoding="utf-8"), re.M)
    return [crate for crate in listed if (TOP / "crates" / crate).is_dir()]


def file_of(crate: str, parts: list[str], folders: list[Path]) -> list[Path]:
    """The file of definitions that a path of names leads to, of a crate in one of these folders; none if there is none."""
    for length in range(len(parts), 0, -1):
        name = Path(crate, "specs", *parts[:length]).with_suffix(".antt")
        for folder in folders:
            if (folder / name).is_file():
                return [folder / name]
    return []


def imports(path: Path, folders: list[Path]) -> Iterator[Path]:
    """The files of definitions that a file imports, of the crates in these folders."""
    for crate, dotted in IMPORT.findall(path.read_text(encoding="utf-8")):
        yield from file_of(crate, [part for part in dotted.split(".") if part], folders)


def end_of(lines: list[str], start: int, indent: str) -> int:
    """The line after a definition: where the next thing of its depth begins."""
    after = start + 1
    while after < len(lines):
        line = lines[after]
        if DEFINITION.match(line) or MODULE.match(line) or line.startswith(indent + "--"):
            break
        after += 1
    while not lines[after - 1].strip():
        after -= 1
    return after


def start_of(lines: list[str], start: int, indent: str) -> int:
    """The first line of the comment of a definition, or the definition's own."""
    while start > 0 and lines[start - 1].startswith(indent + "--"):
        start -= 1
    return start


def definitions(text: str) -> Iterator[tuple[str, int, list[str]]]:
    """The definitions of a text: the name of each, its line (from 0), and its lines after those of its comment and its module."""
    lines = text.splitlines()
    module: list[str] = []
    for at, line in enumerate(lines):
        if MODULE.match(line):
            module = lines[start_of(lines, at, "") : at + 1]
        start = DEFINITION.match(line)
        if start:
            indent, name = start.groups()
            own = lines[start_of(lines, at, indent) : end_of(lines, at, indent)]
            yield name, at, [*(module if indent else []), *own]


def is_named(path, wanted):
    """Whether a path of names ends in one of the wanted ones: `office_store::Desk::adopt` ends in `Desk::adopt` and in `adopt`."""
    return ("::" + path).endswith(tuple("::" + name for name in wanted))


def print_entries(entries):
    """Prints of each entry its heading, and its text below."""
    for heading, text in entries:
        print(heading, *("    " + row if row else "" for row in text), "", sep="\n")


def run(tool, usage, what, entries_of, pages_of=None):
    """Does what the command line of a tool asks, and returns its status: counts each crate's entries, or prints those of a crate.

    An entry is a path of names, a place and the lines of a text. A crate is printed as its entries, or as its pages, if there are
    some: each a heading and the lines of a text.
    """
    crates, words = crate_names(), sys.argv[1:]
    if not words:
        for crate in crates:
            print(f"{crate:18}{len(entries_of(crate)):4} {what}s")
        return 0
    crate, *wanted = words
    if crate in ("-h", "--help"):
        print(usage, end="")
        return 0
    if crate not in crates:
        sys.exit(f"{tool}: there is no crate {crate}")
    if pages_of and not wanted:
        print_entries(pages_of(crate))
        return 0
    entries = entries_of(crate)
    print_entries((f"{path}  {place}", text) for path, place, text in entries if not wanted or is_named(path, wanted))
    missing = [name for name in wanted if not any(is_named(path, [name]) for path, _, _ in entries)]
    for name in missing:
        print(f"{tool}: {crate} has no {what} {name}", file=sys.stderr)
    return 1 if missing else 0

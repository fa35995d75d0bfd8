"""The reading list of the main theorem: the definitions that its clause reaches, each counted by itself and not with its file.

A definition is reached if its name stands in the clause, or in a definition that is reached; comments and texts in quotes do not
count. So a list may hold a few definitions too many, where a variable has the name of one, but none too few.
"""

import re
from collections.abc import Iterator
from pathlib import Path
from typing import NamedTuple

import sources

CLAUSE = ("office_store", "handle_all_in_memory", "runs")
IMPORT = re.compile(r"^\s*(?:pub |ghost )*use (Rattle\.[^\s{;]+?)\.?(?:\{([^}]*)\})?(?: as ([\w'-]+))?;?$", re.M)
NAME = re.compile(r"[^\W\d][\w'-]*(?:\.[^\W\d][\w'-]*)*")
NO_NAMES = re.compile(r'--.*|"(?:[^"\\]|\\.)*"|\bpub [\w\'-]+ :|^\s*[\w\'-]+ = ', re.M)
TYPE = r"^pub (?:struct|enum|trait|type) {}\b"


class Definition(NamedTuple):
    """A definition: its file, its name, its line there (from 1), and its lines with those of its comment."""

    path: Path
    name: str
    line: int
    text: tuple[str, ...]


class RustType(NamedTuple):
    """A type of the code that a definition speaks of."""

    path: Path
    name: str


class Source(NamedTuple):
    """A file: its definitions by their names, and the names that it imports, each with the path of names that it stands for."""

    definitions: dict[str, Definition]
    imported: dict[str, str]


def read_source(path: Path) -> Source:
    """A file as it is read."""
    text = path.read_text(encoding="utf-8")
    own = {name: Definition(path, name, at + 1, tuple(lines)) for name, at, lines in sources.definitions(text)}
    return Source(own, dict(imported_names(text)))


def imported_names(text: str) -> Iterator[tuple[str, str]]:
    """The names that a file imports, each with the path of names that it stands for."""
    for path, names, alias in IMPORT.findall(text):
        if not names:
            yield alias or path.rpartition(".")[2], path
        for entry in filter(None, map(str.strip, names.split(","))):
            origin, _, other = entry.partition(" as ")
            yield other or origin, f"{path}.{origin}"


class ReadingList:
    """The definitions that a clause reaches, the Rust types that they name, and the files of the kit that they import from."""

    def __init__(self, top: Path, kit: Path) -> None:
        self.top, self.kit = top, kit
        self.sources: dict[Path, Source] = {}
        self.uses: dict[Definition, list[Definition]] = {}
        self.types: set[RustType] = set()
        self.kit_files: set[Path] = set()
        names, source = self.clause()
        self.starts = self.reached(names, source)
        waiting = list(self.starts)
        while waiting:
            one = waiting.pop()
            if one not in self.uses:
                self.uses[one] = self.reached("\n".join(one.text), self.source(one.path), one.name)
                waiting.extend(self.uses[one])

    def source(self, path: Path) -> Source:
        """A file, which is read once."""
        if path not in self.sources:
            self.sources[path] = read_source(path)
        return self.sources[path]

    def clause(self) -> tuple[str, Source]:
        """The text of the theorem's clause, and the file that has it."""
        crate, function, clause = CLAUSE
        for path in sorted((self.top / "crates" / crate / "src").rglob("*.rt")):
            _, found, contract = path.read_text(encoding="utf-8").partition(f"fn {function}(")
            if found:
                text = contract.partition(f"ensures {clause} {{")[2]
                return re.split(r"^    ensures |^\{", text, maxsplit=1, flags=re.M)[0], self.source(path)
        raise LookupError(f"{crate} has no function {function}")

    def reached(self, text: str, source: Source, own: str = "") -> list[Definition]:
        """The definitions that a text names, in the order in which it names them."""
        found = {}
        for name in NAME.findall(NO_NAMES.sub(" ", text)):
            first, _, rest = name.partition(".")
            if first in source.imported:
                one = self.look_up(".".join(filter(None, [source.imported[first], rest])))
            else:
                one = source.definitions.get(first) if first != own else None
            if one:
                found[one] = one
        return list(found)

    def look_up(self, dotted: str) -> Definition | None:
        """The definition of a path of names. Notes a type of the code, and a file of the kit."""
        _, crate, _, *parts = dotted.split(".")
        specs = self.top / "crates" / crate / "specs"
        if not specs.is_dir():
            self.kit_files.update(sources.file_of(crate, parts, [self.kit]))
            return None
        if parts[0] == "declared":
            self.note_type(specs.parent / "src", parts[1:])
        for length in range(len(parts) - 1, 0, -1):
            path = Path(specs, *parts[:length]).with_suffix(".antt")
            if path.is_file():
                source, name = self.source(path), parts[length]
                if name in source.imported:
                    return self.look_up(source.imported[name])
                return source.definitions.get(name)
        return None

    def note_type(self, src: Path, parts: list[str]) -> None:
        """Notes the type of the code that a path of names ends in, if it is one."""
        for at, name in enumerate(parts):
            path = Path(src, *parts[:at]).with_suffix(".rt")
            if path.is_file() and re.search(TYPE.format(re.escape(name)), path.read_text(encoding="utf-8"), re.M):
                self.types.add(RustType(path, name))

    def files(self) -> list[Path]:
        """The files that have these definitions: each before those that it uses, and what the clause names first comes first."""
        order: list[Path] = []
        seen: set[Path] = set()

        def visit(path: Path) -> None:
            if path not in seen:
                seen.add(path)
                used = [other.path for one in self.of_file(path) for other in self.uses[one]]
                for other in reversed(used):
                    visit(other)
                order.append(path)

        for one in reversed(self.starts):
            visit(one.path)
        return order[::-1]

    def of_file(self, path: Path) -> list[Definition]:
        """The definitions of a file that are reached, in its order."""
        return [one for one in self.source(path).definitions.values() if one in self.uses]

    def lines(self) -> int:
        """The lines of all definitions that are reached."""
        return sum(map(line_count, self.uses))

    def ambiguous(self) -> dict[str, list[Definition]]:
        """The names that more than one of the files defines, with their definitions."""
        by_name: dict[str, list[Definition]] = {}
        for path in self.files():
            for one in self.of_file(path):
                by_name.setdefault(one.name, []).append(one)
        return {name: found for name, found in sorted(by_name.items()) if len(found) > 1}

    def of_kit(self) -> set[Path]:
        """The kit's files of definitions that are named, and those that they import in turn, counted whole."""
        found: set[Path] = set()
        waiting = list(self.kit_files)
        while waiting:
            path = waiting.pop()
            if path not in found:
                found.add(path)
                waiting.extend(sources.imports(path, [self.kit]))
        return found


def line_count(one: Definition) -> int:
    """The lines of a definition and of its comment that are not empty."""
    return sum(bool(line.strip()) for line in one.text)

"""Runs of the program over a file, and the cases of a group with the first surprise of each."""

import subprocess
import sys
from collections.abc import Iterator
from contextlib import contextmanager
from dataclasses import dataclass
from pathlib import Path

SECONDS = 20
UNAVAILABLE = "unavailable"
NOT_AN_OFFICE = "refused 21 NotAnOffice"


class Surprise(Exception):
    """Something is otherwise than it should be."""


def expect(holds: bool, what: str) -> None:
    """Ends the case if this does not hold."""
    if not holds:
        raise Surprise(what)


def status_of(answer: str) -> int:
    """The status that goes with an answer."""
    if answer == UNAVAILABLE:
        return 3
    return 1 if answer.startswith("refused ") else 0


@dataclass(frozen=True)
class Program:
    """The program, by the words with which each of its runs begins. A run may take so many seconds."""

    words: tuple[str, ...]
    seconds: int = SECONDS

    def answers(self, file: Path, line: str, answer: str) -> None:
        """Runs a line of the program, as `do round`, over the file: it has to be answered so, with the status that goes with it."""
        verb, *rest = line.split()
        words = [*self.words, verb, "--db", str(file), *rest]
        try:
            done = subprocess.run(words, stdin=subprocess.DEVNULL, capture_output=True, timeout=self.seconds, check=False)
        except subprocess.TimeoutExpired:
            raise Surprise(f"{line[:60]}: no answer in {self.seconds} seconds") from None
        came = (done.stdout.decode(errors="replace"), done.stderr.decode(errors="replace"), done.returncode)
        due = (f"{answer}\n", "", status_of(answer))
        expect(came == due, f"{line[:60]}: {came} came, and not {due}")


def content_of(folder: Path) -> dict[str, bytes]:
    """The bytes of each file in a folder, and nothing for what is no file."""
    return {path.name: path.read_bytes() if path.is_file() else b"" for path in folder.iterdir()}


# No log is shorter that holds a page: a header, the header of a frame, and the smallest page.
SHORTEST_LOG = 32 + 24 + 512


def is_log(name: str) -> bool:
    """Whether a file of this name is the log of a database."""
    return name.endswith("-wal")


@contextmanager
def left_alone(folder: Path, log_may_change: bool = False) -> Iterator[None]:
    """In the end each file of the folder has its bytes, and besides them there are at most logs without content. A log
    that a killed writer left may be recovered."""
    before = content_of(folder)
    yield
    after = content_of(folder)
    lost = [name for name, content in before.items() if after.get(name) != content and not (log_may_change and is_log(name))]
    more = [name for name, content in after.items() if name not in before and not (is_log(name) and len(content) < SHORTEST_LOG)]
    expect(not lost, f"changed or gone: {', '.join(lost)}")
    expect(not more, f"new, and no empty log: {', '.join(f'{name} of {len(after[name])} bytes' for name in more)}")


class Cases:
    """The cases of a group: how many there were, and how many held a surprise."""

    def __init__(self, group: str) -> None:
        self.group, self.count, self.surprises = group, 0, 0

    @contextmanager
    def case(self, name: str) -> Iterator[None]:
        """One case. It ends at its first surprise, which is printed."""
        self.count += 1
        try:
            yield
        except Surprise as surprise:
            self.surprises += 1
            print(f"surprise: {self.group}: {name}: {surprise}", flush=True)

    def tell(self, text: str) -> int:
        """Prints what the group was and how many cases it had; gives how many held a surprise."""
        held = f", {self.surprises} with a surprise" if self.surprises else ""
        print(f"{text}: {self.count}{held}", flush=True)
        return self.surprises


def finish(surprises: int) -> None:
    """Ends the script, with status 1 if there were surprises."""
    if surprises:
        sys.exit(f"{surprises} surprises")
    print("all is as it should be")

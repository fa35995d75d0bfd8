"""Runs sessions with the program, and compares what it answers with what they say; examples/sessions.sh says more."""

import difflib
import os
import shlex
import shutil
import sqlite3
import subprocess
import sys
import tempfile
from contextlib import closing
from dataclasses import dataclass, field
from multiprocessing.pool import ThreadPool
from pathlib import Path

# What a command without lines of input is given: only `rehearse` and `lines` read it.
UNREAD = "room LEFT\n"
# The files next to a session that its commands may read.
READ = (".csv", ".out", ".sql", ".txt")
SECONDS = 300


@dataclass
class Step:
    """A command of a session, its lines of input, and what it has to answer."""

    place: str
    command: str
    given: list[str] = field(default_factory=list)
    wanted: list[str] = field(default_factory=list)


def answer_of(output: str, error: str, status: int) -> list[str]:
    """What a command answered, in the form of a session."""
    lines = output.removesuffix("\n").split("\n") if output else []
    if output and not output.endswith("\n"):
        lines.append("(no line feed at the end)")
    lines += [f"! {line}" for line in error.splitlines()]
    return lines + ([f"(status {status})"] if status else [])


def steps_of(session: Path, variant: dict[str, str]) -> list[Step]:
    """The steps of a session, with the values of this variant in place of their names."""
    steps: list[Step] = []
    for number, line in enumerate(session.read_text(encoding="utf-8").splitlines(), 1):
        for name, value in variant.items():
            line = line.replace(f"{{{name}}}", value)
        mark, text = line[:2], line[2:]
        if not line or line.startswith(("#", "%")):
            continue
        if mark == "$ ":
            steps.append(Step(f"{session}:{number}", text))
        elif not steps:
            sys.exit(f"{session}:{number}: no command stands above this line")
        elif mark.rstrip() == ">":
            steps[-1].given.append(text)
        else:
            steps[-1].wanted.append(line)
    if not steps:
        sys.exit(f"{session}: no command")
    return steps


def variants_of(session: Path) -> list[dict[str, str]]:
    """The values with which a session runs, a line with `%` for each run; or one run without values."""
    lines = [line for line in session.read_text(encoding="utf-8").splitlines() if line.startswith("% ")]
    return [dict(word.split("=", 1) for word in shlex.split(line[2:])) for line in lines] or [{}]


def difference(step: Step, folder: Path, path: str) -> str:
    """Runs a step in the folder. Gives how its answer differs from what the session says, or nothing."""
    given = "".join(f"{line}\n" for line in step.given) if step.given else UNREAD
    words = ["timeout", str(SECONDS), "bash", "-c", f"set -o pipefail; {step.command}"]
    environment = {**os.environ, "PATH": path}
    ran = subprocess.run(words, input=given.encode(), capture_output=True, cwd=folder, env=environment, check=False)
    output, error = (text.decode("utf-8", "backslashreplace") for text in (ran.stdout, ran.stderr))
    found = answer_of(output, error, ran.returncode)
    lines = difflib.unified_diff(step.wanted, found, "the session", "the program", lineterm="")
    return "\n".join([f"{step.place}: $ {step.command}", *lines]) if found != step.wanted else ""


def run_session(session: Path, variant: dict[str, str], path: str) -> list[str]:
    """The differences of the steps of a session, which runs in a folder of its own."""
    with tempfile.TemporaryDirectory() as name:
        for file in session.parent.iterdir():
            if file.suffix in READ:
                shutil.copy(file, name)
        return [difference(step, Path(name), path) for step in steps_of(session, variant)]


def run_all(program: str, sessions: list[Path]) -> bool:
    """Runs the sessions, prints each difference and a closing line. Says whether there was none."""
    runs = [(session, variant) for session in sessions for variant in variants_of(session)]
    with tempfile.TemporaryDirectory() as tools:
        (Path(tools) / "rooms").symlink_to(program)
        shell = Path(tools) / "sqlite3"
        words = shlex.join([sys.executable, os.path.abspath(__file__), "--sqlite3"])
        shell.write_text(f'#!/bin/sh\nexec {words} "$@"\n', encoding="utf-8")
        shell.chmod(0o755)
        path = f"{tools}:{os.environ['PATH']}"
        with ThreadPool(os.cpu_count()) as pool:
            found = pool.starmap(run_session, [(*run, path) for run in runs], 1)
    commands = [text for differences in found for text in differences]
    differing = [text for text in commands if text]
    print(*differing, sep="\n", end="\n" if differing else "")
    answered = "each as its session says" if not differing else f"{len(differing)} otherwise than the session says"
    print(f"sessions: {len(commands)} commands answered, {answered}")
    return bool(commands) and not differing


def execute(file: str, *statements: str) -> None:
    """Does what `sqlite3 FILE STATEMENTS` does for a session, so that no `sqlite3` need be installed."""
    text = " ".join(statements) or sys.stdin.read()
    with closing(sqlite3.connect(file, isolation_level=None)) as database:
        if text.lstrip().startswith(("SELECT", "PRAGMA")):
            for row in database.execute(text):
                print(*("" if value is None else value for value in row), sep="|")
        else:
            database.executescript(text)


if __name__ == "__main__":
    if sys.argv[1] == "--sqlite3":
        execute(*sys.argv[2:])
    else:
        sys.exit(not run_all(sys.argv[1], [Path(name) for name in sys.argv[2:]]))

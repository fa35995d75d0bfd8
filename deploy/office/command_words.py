"""The words of the office's command: whether one of them may be a key, and whose identifiers are those of the same people.
And the line that stands for them on standard input."""

import os
import sys

from lines import name_shows_a_key, shows_a_key

KEY_ON_COMMAND_LINE = """\
rooms-office: a key on the command line gets into the history of your shell and into the list of processes.
Nothing was done. If this was a key, give its owner another one (rooms-office key PERSON), and delete the line from the
history. Give a line with a key on standard input: run `rooms-office do -`, type the line, and press Enter.
To see what is on record of a person without their key: rooms-office view PERSON"""


def may_have_a_key(words: list[str]) -> bool:
    """Whether one of the words may be a key. The names of copies, and paths, may look like one."""
    match words:
        case ["do", *line]:
            line = " ".join(line).split()
            if line[:1] == ["name"]:
                return name_may_have_a_key(line[1:])
            return shows_a_key(" ".join(line)) or line[:1] in (["person"], ["key"], ["me"])
        case ["back", _]:
            return False
        case ["name", *words]:
            return name_may_have_a_key(words)
        case ["import", kind, label, _]:
            return shows_a_key(f"import {kind} {label}")
        case _:
            return shows_a_key(" ".join(words))


def name_may_have_a_key(words: list[str]) -> bool:
    """The same of an identifier and a name. Long words of letters alone are names."""
    return shows_a_key(" ".join(words[:1])) or name_shows_a_key(" ".join(words[1:]))


def apart(words: list[str]) -> tuple[list[str], list[str]]:
    """The words without `--again ID[,ID..]` after the command, and these identifiers."""
    if len(words) > 2 and words[0] in ("do", "lines", "try", "import") and words[1] == "--again":
        return [words[0], *words[3:]], words[2].split(",")
    return words, []


def line_on_input(longest: int) -> tuple[str, bool]:
    """The line of standard input, and whether others come with it."""
    given = b""
    while b"\n" not in given and len(given) < longest and (part := os.read(sys.stdin.fileno(), longest)):
        given += part
    line, _, others = given.partition(b"\n")
    return line.decode("utf-8", "surrogateescape").rstrip("\r"), bool(others.strip())

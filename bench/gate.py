"""Runs the gate, and prints what each crate's proof, tests and mutants cost, and which mutants cost most.

The prover's processes are looked at twice a second: a process names its crate, a check of tests has a flag of its own,
and a mutant is checked in a temporary folder; the files there say which one it is. What a process used after the last look at
it is not counted. The table so far is written next to the log, once a minute.
"""

import os
import re
import signal
import subprocess
import sys
import time
from collections import defaultdict
from dataclasses import dataclass, field

INTERVAL = 0.5
KEPT_EACH = 60.0
TICKS = os.sysconf("SC_CLK_TCK")
PARTS = ("proof", "tests", "edits")
DEAREST = 12


@dataclass
class Cost:
    """What one part of a crate's gate took, in seconds."""

    began: float = 0.0
    ended: float = 0.0
    used: dict = field(default_factory=dict)

    def note(self, now, process, used):
        self.began = self.began or now
        self.ended = now
        self.used[process] = used


@dataclass
class Tried:
    """A mutant that was tried, by its name, and what that took."""

    name: str
    cost: Cost = field(default_factory=Cost)


def text_of(path):
    with open(path, encoding="utf-8", errors="replace") as it:
        return it.read()


def edited(edit, crate):
    """The files of the crate that the mutant changes, by their paths, with their texts after it."""
    path, old = "", ""
    texts: dict[str, str] = {}
    for line in text_of(edit).split("\n"):
        word, _, rest = line.partition(": ")
        if word == "file":
            path = rest.strip()
        elif word == "old":
            old = rest
        elif line.startswith("new:"):
            texts.setdefault(path, text_of(f"{crate}/{path}"))
            texts[path] = texts[path].replace(old, rest)
    return texts


def name_of(crate, room):
    """Which mutant of the crate is in the folder: the one that makes its files of the crate's. If none does, the folder
    has the crate as it is, or its files are gone already."""
    bodies = f"crates/{crate}/must-fail"
    for name in sorted(os.listdir(bodies)):
        try:
            texts = edited(f"{bodies}/{name}", f"crates/{crate}")
            if all(text_of(f"{room}/{path}") == text for path, text in texts.items()):
                return f"{crate}/{name.removesuffix('.edit')}"
        except OSError:
            continue
    return f"{crate}, as it is"


def processes():
    """All processes: number, that of the parent, processor time in seconds, words, working folder."""
    for name in filter(str.isdigit, os.listdir("/proc")):
        try:
            with open(f"/proc/{name}/stat", encoding="utf-8") as it:
                text = it.read()
            with open(f"/proc/{name}/cmdline", "rb") as it:
                words = it.read().decode(errors="replace").split("\0")
            folder = os.readlink(f"/proc/{name}/cwd")
        except OSError:
            continue
        rest = text[text.rindex(")") + 2 :].split()
        # the process's own user and system time, and its start, since numbers come again
        yield int(name), int(rest[1]), (int(rest[11]) + int(rest[12])) / TICKS, rest[19], words, folder


def part_of(words, folder):
    """The crate and the part that a check of the prover is of, if it is one."""
    if not words or not words[0].endswith("/rattle") or "--crate-name" not in words:
        return None
    crate = words[words.index("--crate-name") + 1]
    if os.path.basename(folder).startswith("rt-edit-"):
        return crate, "edits"
    return crate, "tests" if "--test" in words else "proof"


def look(gate, costs, tried, now):
    """Adds what the gate's processes have used to the costs: a child's to those of the check that started it. What is used in a
    folder of a mutant is kept apart, in `tried`."""
    seen = {number: rest for number, *rest in processes()}
    for number, (_, used, start, _, _) in seen.items():
        above, part, room = number, None, None
        while above in seen and above != gate:
            parent, _, _, words, folder = seen[above]
            if not part:
                part, room = part_of(words, folder), folder
            above = parent
        if part and above == gate:
            costs[part].note(now, (number, start), used)
            if part[1] == "edits":
                body = tried.setdefault(room, Tried(name_of(part[0], room)))
                body.cost.note(now, (number, start), used)


def minutes(seconds):
    return f"{seconds / 60:.1f}"


def dearest(tried):
    """The mutants that took most of a processor. The first of a crate pays for the proof of the crate itself."""
    firsts: dict[str, Tried] = {}
    for body in tried.values():
        crate = re.split(r"[/,]", body.name)[0]
        firsts.setdefault(crate, body)
    rest = [body for body in tried.values() if body not in firsts.values()]

    def used(body):
        return sum(body.cost.used.values())

    yield ""
    yield f"{len(tried)} checks of mutants; but for the first of each crate, those that took most of a processor:"
    for body in sorted(rest, key=used, reverse=True)[:DEAREST]:
        yield f"{minutes(used(body)):>6}  {body.name}"


def table(costs, elapsed):
    """The lines of a table of what each part of each crate's gate took."""
    yield "| Crate | Proof | Tests | Mutants | Processor time |"
    yield "|---|---|---|---|---|"
    whole = 0.0
    for crate in dict.fromkeys(crate for crate, _ in costs):
        cells, used_by_crate = [], 0.0
        for part in PARTS:
            cost = costs.get((crate, part), Cost())
            used = sum(cost.used.values())
            used_by_crate += used
            cells.append(f"{minutes(cost.ended - cost.began)} ({minutes(used)})" if cost.used else "")
        whole += used_by_crate
        yield f"| `{crate}` | {' | '.join(cells)} | {minutes(used_by_crate)} |"
    yield f"| all | | | | {minutes(whole)}, in {minutes(elapsed)} by the clock |"


def told(costs, tried, elapsed):
    return "\n".join([*table(costs, elapsed), *dearest(tried)])


def keep(path, text):
    """Writes the table so far, so that a run that is stopped shows what it had cost."""
    with open(path, "w", encoding="utf-8") as out:
        print(text, file=out)


def main(log, command):
    """Runs the gate, and keeps what it prints and a table of what it took."""
    costs: dict[tuple[str, str], Cost] = defaultdict(Cost)
    tried: dict[str, Tried] = {}
    began, kept = time.monotonic(), 0.0
    with open(log, "w", encoding="utf-8") as out:
        # pylint: disable-next=consider-using-with  # an interrupt ends it below
        gate = subprocess.Popen(command, stdout=out, stderr=subprocess.STDOUT, stdin=subprocess.DEVNULL)
        try:
            while gate.poll() is None:
                now = time.monotonic()
                look(gate.pid, costs, tried, now)
                if now - kept > KEPT_EACH:
                    keep(f"{log}.table", told(costs, tried, now - began))
                    kept = now
                time.sleep(INTERVAL)
        finally:
            # an interrupted measurement ends the gate too, and what that has started ends with it
            gate.terminate()
    print(told(costs, tried, time.monotonic() - began))
    print(([line for line in text_of(log).splitlines() if re.search(r"\S", line)] or ["no output"])[-1])
    return gate.returncode


if __name__ == "__main__":
    signal.signal(signal.SIGTERM, lambda *_: sys.exit(143))
    sys.exit(main(sys.argv[1], sys.argv[2:]))

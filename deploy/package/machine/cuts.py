"""cuts.py FOLDER CUTS WORD..: cuts the power of the machine of trial-power, and compares what its office has afterwards.

WORD.. starts qemu, without its disk, its serial lines and what the kernel is given. The machine's office changes all the
time (machine/changes.sh). After each cut it has to be the office after the last change that was answered, or after the
one that had begun, or after one of its lines. The cuts aim at each kind of change in turn.

What is lost is the memory of the machine, not what it had handed to its disk: so a missing fsync is found, and a missing
flush of a disk's own cache is not.
"""

import random
import signal
import subprocess
import sys
import time
from pathlib import Path
from typing import NamedTuple

START_SECONDS = 900  # an emulated machine is slow
KINDS = 8  # of changes, see changes.sh


class Office(NamedTuple):
    """What a machine prints of its office: its rooms, in order, and the list of the resident."""
    rooms: tuple[str, ...]
    wishes: str


def after(change: int, office: Office, copy: Office) -> Office:
    """The office after this change (see changes.sh). `copy` is the office of the last copy."""
    added = {
        0: [f"R{change}"],
        2: [f"I{change}", f"J{change}"],
        3: [f"K{change}", f"L{change}"],
        6: [f"Z{change}"],
    }
    match change % KINDS:
        case 1:
            return office._replace(wishes="A-B")
        case 4:
            return office._replace(wishes="B")
        case 7:
            return copy
        case kind:
            return office._replace(rooms=tuple(sorted([*office.rooms, *added.get(kind, [])])))


def within(change: int, office: Office) -> list[Office]:
    """The office after the first of the two lines of this change, if it has two."""
    return [office._replace(rooms=tuple(sorted([*office.rooms, f"K{change}"])))] if change % KINDS == 3 else []


class Machine:
    """A machine that runs, and the lines that it has printed."""

    def __init__(self, folder: Path, words: list[str], first_change: int) -> None:
        self.said = folder / "said"
        self.said.write_text("")
        given = f"root=/dev/vda rw console=ttyS0 quiet no_timer_check rooms.change={first_change}"
        # pylint: disable-next=consider-using-with  # cut ends it
        self.process = subprocess.Popen([
            *words, "-append", given, "-drive", f"file={folder / 'disk'},format=raw,if=virtio,cache=writeback",
            "-serial", f"file:{folder / 'console'}", "-serial", f"file:{self.said}"])

    def lines(self) -> list[str]:
        """The whole lines that it has printed."""
        return [line.strip() for line in self.said.read_text().splitlines(keepends=True) if line.endswith("\n")]

    def wait_for(self, word: str, seconds: float) -> str:
        """Waits for a line that begins so."""
        end = time.monotonic() + seconds
        while time.monotonic() < end:
            self.fail_at_faults()
            for line in self.lines():
                if line.startswith(word):
                    return line
            if self.process.poll() is not None:
                sys.exit("FAULT  the machine ended")
            time.sleep(0.2)
        sys.exit(f"FAULT  no line `{word}` within {seconds} s; the last: {self.lines()[-1:]}")

    def fail_at_faults(self) -> None:
        """Ends the trial if the machine printed a fault."""
        for line in self.lines():
            if line.startswith("fault"):
                sys.exit(f"FAULT  {line}")

    def cut(self) -> None:
        """Cuts its power: what it had not written to its disk is lost."""
        self.process.kill()
        self.process.wait()


def office_of(line: str) -> tuple[Office, str]:
    """Parses the line `office`: the office, and what sqlite3 says of its file."""
    _, rooms, rest = line.split(" ", 2)
    wishes, _, whole = rest.partition(" ")
    return Office(tuple(sorted(rooms.split(","))), wishes), whole


class Cuts:
    """The cuts of the power so far, and what the office may be after the last one."""

    def __init__(self, folder: Path, words: list[str]) -> None:
        self.folder, self.words, self.draw = folder, words, random.Random(1)
        self.next_change, self.answered = 0, 0
        self.expected = [Office(("A", "B"), "")]

    def start(self, cut: int, is_last: bool) -> None:
        """Starts the machine and looks at its office. Then it cuts the power, not after the last start."""
        machine = Machine(self.folder, self.words, self.next_change)
        try:
            office, whole = office_of(machine.wait_for("office ", START_SECONDS))
            if whole != "ok":
                sys.exit(f"FAULT  sqlite3 says of the file: {whole}")
            if office not in self.expected:
                sys.exit(f"FAULT  the office is {office}\n       and not one of {self.expected}")
            states = ["after the last answer", "after the change that had begun", "after the first line of that change"]
            which = states[self.expected.index(office)]
            print(f"ok     start {cut}: the office {which if cut else 'is the new one'}; its file is whole", flush=True)
            if is_last:
                return
            machine.wait_for(f"begin {self.next_change + cut % KINDS}", START_SECONDS)
            time.sleep(self.draw.uniform(0, 10))
        finally:
            machine.cut()
        machine.fail_at_faults()
        self.note(cut, office, machine.lines())

    def note(self, cut: int, office: Office, lines: list[str]) -> None:
        """Notes what was answered and what had begun, from what the machine printed. `office` is that of its start."""
        ended = [int(line.split()[1]) for line in lines if line.startswith("done ")]
        begun = [int(line.split()[1]) for line in lines if line.startswith("begin ")]
        copy = office
        for number in ended:
            copy = office if number % KINDS == 5 else copy
            office = after(number, office, copy)
        self.answered += len(ended)
        open_ones = [number for number in begun if number not in ended]
        self.expected = [office, *(after(number, office, copy) for number in open_ones),
                         *(state for number in open_ones for state in within(number, office))]
        print(f"       cut {cut + 1}: {len(ended)} changes answered; had begun: {begun[len(ended):]}", flush=True)
        self.next_change = (begun[-1] // KINDS + 1) * KINDS


def main() -> None:
    """Cuts the power of the machine, and starts it again, this many times."""
    signal.signal(signal.SIGTERM, lambda *_: sys.exit(143))
    count, cuts = int(sys.argv[2]), Cuts(Path(sys.argv[1]), sys.argv[3:])
    for cut in range(count + 1):
        cuts.start(cut, cut == count)
    print(f"       {cuts.answered} changes answered, {count} cuts")


if __name__ == "__main__":
    main()

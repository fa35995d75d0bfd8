"""Times the proved trade and the one in plain Rust on large markets; bench/large.sh says what is timed."""

import math
import shutil
import statistics
import subprocess
import sys
from dataclasses import dataclass, field

from growth import instructions

# How many people there are, and how often each program takes its turn.
SIZES = {10_000: 45, 100_000: 15, 1_000_000: 7}
LENGTHS = (20, 40)
KINDS = ("chain", "one_list", "half_tenants")
# Valgrind counts runs of so many people at most, since it takes many times as long.
COUNTED = 100_000
# As in both programs: how many people the runs of one measurement have together, if one run has not more.
PERSON_RUNS = 50_000


@dataclass
class Taken:
    """What the runs of one program took: nanoseconds each, megabytes at most, and the instructions of one run."""

    times: list[int] = field(default_factory=list)
    memory: float = 0
    count: float | None = None


def printed(program, words):
    """The fields that a program prints of one market."""
    return subprocess.run([program, *words], check=True, capture_output=True, text=True).stdout.split()


def memory_of(program, words):
    """How many megabytes a program takes at most, as GNU time says: a child of Python has Python's own maximum at least."""
    told = subprocess.run(["/usr/bin/time", "-f", "%M", program, *words], check=True, capture_output=True, text=True).stderr
    return int(told.split()[-1]) / 1024


def count_of(program, words, people):
    """The instructions of one run, in millions: what the program takes more if it measures runs. None without valgrind."""
    if people > COUNTED or not shutil.which("valgrind"):
        return None
    runs = max(PERSON_RUNS // people, 1)
    once, more = (instructions([program, *first, *words], "") for first in ((), ("times",)))
    return (more - once) * 1000 / runs


def measured(programs, words, turns):
    """What each program takes for one market, and what both say of it."""
    told = [printed(program, words) for program in programs]
    if told[0] != told[1]:
        sys.exit(f"the programs differ in asks, looks or rooms: {told}")
    taken = [Taken(memory=memory_of(program, words), count=count_of(program, words, int(words[0]))) for program in programs]
    for _ in range(turns):
        for program, one in zip(programs, taken):
            one.times.append(int(printed(program, ["times", *words])[-1]))
    return told[0], taken


def tell(words, told, taken):
    """The line of a market."""
    proved, plain = taken
    line = f"{int(words[0]):9,} {words[1]:>6}  {words[2]:12} {int(told[3]):9,} {int(told[4]):10,}"
    for one in taken:
        line += f" {min(one.times) / 1e6:9.2f} {statistics.median(one.times) / 1e6:8.2f}"
    line += f" {min(proved.times) / min(plain.times):6.2f} {statistics.median(proved.times) / statistics.median(plain.times):5.2f}"
    line += f" {proved.memory:7.0f} {plain.memory:5.0f}"
    if proved.count is not None and plain.count is not None:
        line += f" {proved.count:8.2f} {plain.count:8.2f} {proved.count / plain.count:5.2f}"
    print(line, flush=True)


def exponents(figures):
    """By which exponent each figure depends on the size, as one grows tenfold to the next."""
    return " ".join(f"{math.log(large / small, 10):5.2f}" for small, large in zip(figures, figures[1:]))


def tell_growth(kind, length, rows):
    """The exponents of a kind: of the least times from each size to the next, and of the instructions."""
    line = f"{length:6}  {kind:12}"
    for taken in zip(*rows):
        times, counts = [min(one.times) for one in taken], [one.count for one in taken if one.count]
        line += f"   {exponents(times)}   {exponents(counts):5}"
    print(line, flush=True)


def main(proved, plain):
    """Measures each market, and prints how the figures grow."""
    print("                                                         proved, ms         plain Rust, ms     ratio of      MB at most"
          "    million instructions")
    print("   people listed  kind              asks      looks     least   median     least   median  least  med.  proved plain"
          "   proved    plain ratio")
    rows: dict[tuple[str, int], list[list[Taken]]] = {}
    for people, turns in SIZES.items():
        for kind in KINDS:
            for length in LENGTHS:
                words = [str(people), str(length), kind]
                told, taken = measured((proved, plain), words, turns)
                tell(words, told, taken)
                rows.setdefault((kind, length), []).append(taken)
    print("as the people grow tenfold, the exponents of the least times and of the instructions: proved; plain Rust")
    for (kind, length), taken_rows in rows.items():
        tell_growth(kind, length, taken_rows)


if __name__ == "__main__":
    main(*sys.argv[1:])

"""How the time of a round in memory grows, and that of the engine alone; bench/growth.sh says what is timed."""

import re
import shutil
import statistics
import subprocess
import sys
import time

SIZES = (1_000, 2_000)
TURNS = 9


def seconds(line, given):
    """How long the program takes, the median of some runs that have to end well."""
    taken = []
    for _ in range(TURNS):
        begun = time.perf_counter()
        subprocess.run(line, input=given, text=True, check=True, stdout=subprocess.DEVNULL)
        taken.append(time.perf_counter() - begun)
    return statistics.median(taken)


def instructions(line, given):
    """How many thousands of millions of instructions the program takes, as Cachegrind counts: Callgrind takes thrice as long."""
    counted = ["valgrind", "--tool=cachegrind", "--cache-sim=no", "--cachegrind-out-file=/dev/null", *line]
    told = subprocess.run(counted, input=given, text=True, check=True, capture_output=True).stderr
    return int(re.findall(r"refs:\s*([\d,]+)", told)[0].replace(",", "")) / 1e9


def tell(what, runs):
    """One line: what was measured at each size, and how it grew."""
    times = [seconds(*run) for run in runs]
    line = f"{what:24}" + "".join(f"{taken:8.3f} s" for taken in times) + f" {times[1] / times[0]:6.2f} times"
    if shutil.which("valgrind"):
        counts = [instructions(*run) for run in runs]
        line += "".join(f"{count:8.2f} G" for count in counts) + f" {counts[1] / counts[0]:6.2f} times"
    print(line, flush=True)


def main(program, engine):
    rounds = [subprocess.run(["bench/round.sh", str(size)], check=True, capture_output=True, text=True).stdout for size in SIZES]
    print(f"{'people':24}" + "".join(f"{size:8,}  " for size in SIZES))
    tell("a whole round, as lines", [([program, "rehearse"], given) for given in rounds])
    registers = [given.split("\nopen\n")[0] + "\n" for given in rounds]
    tell("its register, as lines", [([program, "rehearse"], given) for given in registers])
    tell("the engine alone for it", [([engine, str(size)], "") for size in SIZES])


if __name__ == "__main__":
    main(*sys.argv[1:])

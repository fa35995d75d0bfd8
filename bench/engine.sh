#!/usr/bin/env bash
# Measures lines of `rooms do` over the file of an office of 2,000 people, each with a list of 40 rooms: `round`, which does little
# but open the file, `choose`, `run` and `settle`; first with everybody housed, and then with nobody. Beside each line it measures
# what the database engine alone needs to open that file and read its rows, or to carry out the statements of a `run` or a
# `settle`, in one transaction. It prints seconds, the medians of runs by turns. Where valgrind is installed, it also prints
# instructions: of the line, of the engine alone, and of SQLite itself, which is written in C (bench/floor.py). Then it measures
# how the opening of a file grows with the office, far beyond the program's limits (bench/openings.py). The engine's own program
# is bench/engine/main.txt.
# The gate does not check it, since it only measures and nothing is built on it: it is proved here, each time
# anew, which takes some minutes.
#
#     bench/engine.sh
set -euo pipefail
. "$(dirname "$0")/program.sh"
# A folder outside the repository: the gate takes no second crates.txt within it, not even under out/.
alone=$(mktemp -d)
trap 'rm -rf "$alone"' EXIT
mkdir -p "$alone/crates/engine/src"
echo "engine: sqlite anyhow" >"$alone/crates.txt"
cp bench/engine/main.txt "$alone/crates/engine/src/main.rt"
(cd "$alone/crates/engine" && rt run >&2)
python3 bench/engine.py "$program" "$alone/crates/engine/out/engine"
python3 bench/openings.py "$alone/crates/engine/out/engine"

#!/usr/bin/env bash
# How the time of a whole round in memory (bench/round.sh) grows from 1,000 people to 2,000, and that of the database engine
# alone for the register: rooms, people without a home, homes. Prints seconds, the median of some runs each, and thousands
# of millions of instructions if there is valgrind. The engine's own program is bench/growth/main.txt; it is proved here, each
# time anew, which takes some minutes.
#
#     bench/growth.sh
set -euo pipefail
. "$(dirname "$0")/program.sh"
# A folder outside the repository: the gate takes no second crates.txt within it, not even under out/.
alone=$(mktemp -d)
trap 'rm -rf "$alone"' EXIT
mkdir -p "$alone/crates/growth/src"
echo "growth: sqlite anyhow" >"$alone/crates.txt"
cp bench/growth/main.txt "$alone/crates/growth/src/main.rt"
(cd "$alone/crates/growth" && rt run -- 1 >&2)
python3 bench/growth.py "$program" "$alone/crates/growth/out/growth"

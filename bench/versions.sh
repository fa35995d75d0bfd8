#!/usr/bin/env bash
# Times two programs by turns, this one and one of an earlier version: a whole round of 2,000 people in memory, and
# `choose`, `run` and `settle` over the file of an office of 2,000 people, each with a list of 40 rooms. Prints the processor's
# seconds, the median of some runs each, and how many times as long this program takes. Both have to print the same answers.
# Where valgrind is installed, it also prints how many thousands of millions of instructions one run of each takes.
#
#     bench/versions.sh EARLIER
set -euo pipefail
earlier=$(realpath -e -- "${1:?the earlier program}")
. "$(dirname "$0")/program.sh"
exec python3 bench/versions.py "$program" "$earlier"

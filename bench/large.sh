#!/usr/bin/env bash
# Times the proved trade and the same mechanism in plain Rust (bench/line) far beyond the size of an office: on markets of 10,000,
# 100,000 and 1,000,000 people, with lists of 20 and of 40 rooms. In a chain each tenant lists the homes of those who come next;
# in the second kind of market all have one list; in the third the lists are drawn, and half of the people have a home.
#
#     bench/large.sh
#
# The two programs take turns. Prints for each market the asks and looks, the least and the median time of a run of both programs,
# and how much memory each takes at most, with the market itself. Where valgrind is installed, it also prints the instructions of
# a run of up to 100,000 people. In the end it prints how time and instructions grow, as exponents of the number of people. It
# fails if the two programs differ in asks, looks or rooms. It needs a gigabyte of memory, and GNU time.
set -euo pipefail
. "$(dirname "$0")/line/programs.sh"
PYTHONDONTWRITEBYTECODE=1 python3 "$bench/large.py" "$proved" "$plain"

#!/usr/bin/env bash
# Stops one of the two files of an office at each of its calls in turn, while an office is made, a small year and a year of
# leavers are carried out a command at a time, lists are imported, and an office of an earlier version is migrated or one in
# the documented order is adopted; whatever is then left of the files is opened again (the tests `stops` of `fault_tests`).
# Prints how many stops there were, how many offices were checked, and how many of these were already the office after a
# command that had no answer; the last line has the sums. It proves the tests first, which takes some minutes.
#
#     bench/stops.sh
set -euo pipefail
cd "$(dirname "$0")/../crates/fault_tests"
rt test >&2
tests=$(out/fault_tests_tests --list | sed -n 's/^\(stops::.*\): test$/\1/p')
for test in $tests; do
    out/fault_tests_tests "$test"
done | awk '{ print } match($0, /[0-9]+ stops, [0-9]+ offices/) {
    split(substr($0, RSTART, RLENGTH), words, " ")
    stops += words[1]; offices += words[3]
} END { print stops " stops and " offices " offices looked at in all" }'

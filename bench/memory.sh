#!/usr/bin/env bash
# Refuses memory to the program, and to the calls of its desk that the tests of bench/refused/ make: each scenario is run with
# its first allocation refused, then with its second, and so on until a run takes no more. Each answer has to be the one of
# ample memory after the commands that were accepted so far, or `unavailable` in the form of its line or call. With the former
# the file has to hold the office after the line, and also if the answer's text could not be made; with the latter it has to
# hold the office before the line. The tables of a desk have to hold that after the accepted commands. Prints how many
# allocations were refused. It needs a C compiler, for the few lines that refuse (bench/refuse.c), and glibc.
#
#     bench/memory.sh 4
#     bench/memory.sh 4 leavers migrate
#
# The number of parallel runs may be given, and after it the parts to try; without such words all are tried, which takes some
# forty minutes of four processors. The parts:
#
#     desk       the calls of the desk, by the tests of bench/refused/ (bench/refused.sh proves them first)
#     year       a year rehearsed (examples/year.txt)
#     leavers    a year with grades and leavers rehearsed (examples/leavers.txt)
#     lists      a year, line by line over a file (bench/lists.txt)
#     grades     the next year over that file, with grades and a leaver (bench/grades.txt)
#     exports    the exports of the office after that
#     migrate    `rooms migrate` over files of versions 1 and 2, in each known order of their tables
#     residents  requests to `rooms serve`
#     going      requests of a resident who is going
set -euo pipefail
. "$(dirname "$0")/program.sh"
jobs=${1:-$(nproc)}
parts=("${@:2}")
folder=$(mktemp -d)
trap 'rm -rf "$folder"' EXIT
mkdir "$folder/copy"
case " ${parts[*]:-desk} " in *" desk "*) bench/refused.sh "$folder/copy" test >&2 ;; esac
cc -shared -fPIC -O1 -o "$folder/refuse.so" bench/refuse.c
python3 bench/memory.py "$program" "$folder/copy/crates/fault_tests/out/fault_tests_tests" "$folder/refuse.so" "$jobs" "${parts[@]}"

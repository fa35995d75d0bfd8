#!/usr/bin/env bash
# Upgrades files that an earlier program wrote. EARLIER is that program, whose tables are of version 1: the one of commit
# 47368b8, the last before grades and leavers. It carries out three rounds of a small office (bench/earlier-files.txt) and one
# round of an office of 2,000 people, each with a list of 40 rooms. The script copies its file, with the log next to it, before
# the first line and after each line that changes a row. This program has to refuse each copy by its version and leave it as it
# is. Then it has to migrate the copy, and Python's sqlite3 compares the rows before and after. Then it goes on with the copy to
# the end of the last round: it has to give the answers that the earlier program gave, and in the end the rows have to be the
# same. Prints how many copies there were in each phase of each round, how many of them held a surprise, and the first surprise
# of each. It ends with a status that is not 0 if there was one.
#
#     bench/earlier-files.sh EARLIER
set -euo pipefail
earlier=$(realpath -e -- "${1:?the earlier program}")
. "$(dirname "$0")/program.sh"
exec python3 bench/earlier_files.py "$program" "$earlier"

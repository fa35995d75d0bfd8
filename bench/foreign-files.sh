#!/usr/bin/env bash
# Hands the program files that it did not write. Python's sqlite3 makes the tables as docs/formats.md has them and fills them
# with lawful offices, in each phase of a round and in several ways (journal modes, sizes of pages, a killed writer's log):
# each has to be accepted, answer as its rows are, and be intact after a command. Then one invariant of an office is broken at
# a time: the program has to refuse it by its name and leave the file as it was. Files that are no database, damaged, held by
# another program or not permitted have to be unavailable. Prints how many of each kind there were, and the first surprise of
# each case.
#
#     bench/foreign-files.sh
set -euo pipefail
. "$(dirname "$0")/program.sh"
exec python3 bench/foreign_files.py "$program"

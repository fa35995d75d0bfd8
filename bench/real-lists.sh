#!/usr/bin/env bash
# Imports lists as spreadsheets write them, by Python's csv and, if it is installed, by LibreOffice, and compares what is
# exported field by field; and imports what is no list, too long, or can't be read, and looks whether the answer is the named
# one and nothing is changed. It ends at the first list that is answered otherwise.
#
#     bench/real-lists.sh
set -euo pipefail
. "$(dirname "$0")/program.sh"
exec python3 bench/real_lists.py "$program"

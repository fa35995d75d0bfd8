#!/usr/bin/env bash
# Imports lists of 2,000 rooms, 2,000 people with homes and 2,000 choices of 20 rooms each (or 40, then in two lists) into an
# office in a new file, each list twice, and carries out the round. What the file holds and what is exported is compared field
# by field with what was sent and its outcome. Prints how long each import and each line of the round takes, the whole process
# of the program.
#
#     bench/lists.sh 40
set -euo pipefail
. "$(dirname "$0")/program.sh"
exec python3 bench/lists.py "$program" "${1:-20}"

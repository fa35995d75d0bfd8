#!/usr/bin/env bash
# Kills `rooms lines` at drawn moments, so many times, while the lines of a small year go through it. Prints how many of these
# runs had answered none, some or all of the lines. It ends at the first file that is not intact, or that lacks a line of whose
# answer a byte had come.
#
#     bench/killed.sh 200
set -euo pipefail
. "$(dirname "$0")/program.sh"
exec python3 bench/killed.py "$program" "${1:-20}" examples/year.txt

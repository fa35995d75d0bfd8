#!/usr/bin/env bash
# Lets `rooms do` and `rooms import` fail while they change a file, so many times for each line of a small year and of a year
# by lists: `kill` kills them at drawn moments, `limit` keeps their files from growing, `full` fills the disk (as root). Prints
# how many of these runs had answered, were answered `unavailable`, or kept their change. It ends at the first file that is not
# intact, or that holds an office which is neither the one before the line nor the one after it.
#
#     bench/faults.sh kill 10
set -euo pipefail
. "$(dirname "$0")/program.sh"
exec python3 bench/faults.py "${1:-kill}" "$program" "${2:-5}" examples/year.txt bench/lists.txt

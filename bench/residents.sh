#!/usr/bin/env bash
# Sends requests to `rooms serve`, one after the other, from residents of an office of 2,000 people and rooms in a file: by
# turns a list that is handed in and a look at what is on record. Each answer is compared with the expected one, and in the
# end the file with all that was handed in. Prints requests a second, and for each kind the median and the 99th percentile of
# one's own time.
#
#     bench/residents.sh 10000
set -euo pipefail
. "$(dirname "$0")/program.sh"
exec python3 bench/residents.py "$program" "${1:-10000}"

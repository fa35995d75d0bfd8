#!/usr/bin/env bash
# Counts the instructions of one `rooms lines` over the file of an office of 2,000 people, each with a list of 40 rooms: with one
# withdrawal, and with 300; first with everybody housed, and then with nobody. It needs valgrind.
#
#     bench/bundle.sh
set -euo pipefail
. "$(dirname "$0")/program.sh"
exec python3 bench/bundle.py "$program"

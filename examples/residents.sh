#!/usr/bin/env bash
# Runs docs/residents.md line by line, in a folder of its own and on a free port, and compares the answers with those of the
# page.
set -euo pipefail
. "$(dirname "$0")/../bench/program.sh"
exec python3 examples/residents.py "$program" docs/residents.md

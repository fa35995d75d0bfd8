#!/usr/bin/env bash
# Runs the gate (`.ci/run`) and prints what it cost: for each crate the time from its first check to its last and the
# processor time, in minutes, of its proof, its tests and its mutants; and the mutants that took most of a processor.
# The run's own output goes to out/gate.log, the table so far to out/gate.log.table once a minute, and the last line is printed
# last. If words are given, it runs them in place of `.ci/run`.
set -euo pipefail
cd "$(dirname "$0")/.."
mkdir -p out
[ $# -gt 0 ] || set -- .ci/run
exec python3 bench/gate.py out/gate.log "$@"

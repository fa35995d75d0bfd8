#!/usr/bin/env bash
# Runs sessions with the program: the files that end in .session, in examples/ and in examples/runs/, or those that are named.
# Ends with a status that is not 0 if a command answers otherwise than its session says.
#
#     examples/sessions.sh
#     examples/sessions.sh examples/lists.session
#
# Each session runs in a folder of its own, with copies of the lists and the other files next to it. Its lines:
#
#     $ COMMAND       a command of bash, in which `rooms` is the program; a session has one or more
#     > LINE          a line of the command's standard input
#     LINE            a line of its standard output; its lines are compared in order, with those of input left out
#     ! LINE          a line of its standard error
#     (status N)      its status, if that is not 0
#     # TEXT          a comment
#     % NAME=VALUE..  the session runs once for each line of this kind, with VALUE in place of {NAME}
set -euo pipefail
. "$(dirname "$0")/../bench/program.sh"
[ $# -gt 0 ] || set -- examples/*.session examples/runs/*.session
exec python3 examples/sessions.py "$program" "$@"

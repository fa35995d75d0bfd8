# shellcheck shell=bash disable=SC2164 # who sources this has set -e
# Sourced by the scripts that run the program: goes to the top of the repository, and sets `program` to the
# path of the program. ROOMS may name one that is built already; without it the program is proved and built
# if necessary. Python keeps nothing next to the scripts, so that the repository stays as it is.
export PYTHONDONTWRITEBYTECODE=1
program=${ROOMS:+$(realpath -e -- "$ROOMS")}
cd "$(dirname "${BASH_SOURCE[0]}")/.."
if [ -z "$program" ]; then
    ./rooms rehearse </dev/null
    program=$PWD/crates/rooms/out/rooms
fi

#!/usr/bin/env bash
# Cuts input and output at each place: a resident's request in two chunks at each byte, a byte a read, and at its end too
# early; each read and each write fails in turn, of an exchange, of a rehearsed register, and of exports. These are tests of
# `fault_tests`, `program_tests` and `trade_tests`, which print how often they did it; the last line has the sums. It
# proves the tests first, which takes some minutes.
#
#     bench/cuts.sh
set -euo pipefail
cd "$(dirname "$0")/../crates"

# The tests of a module of a crate, each with what it prints.
tell() {
    local crate=$1 module=$2 test
    shift 2
    (cd "$crate" && rt test >&2)
    for test in "$@"; do
        "$crate/out/${crate}_tests" "$module::$test"
    done
}

# Its input, with the sums of the numbers in its lines.
with_sums() {
    awk '{ print } / cuts$/ { cuts += $(NF - 1) } / faults$/ { faults += $(NF - 1) }
        END { print cuts " cuts and " faults " faults in all" }'
}

{
    tell fault_tests desk::faults answers_the_same_however_a_request_is_cut refuses_each_incomplete_request stops_where_a_read_fails stops_where_a_write_fails
    tell program_tests streams stops_where_a_read_fails stops_where_a_write_takes_nothing stops_where_a_write_fails
    tell trade_tests lists::exports stops_where_the_device_is_full stops_where_a_write_fails stops_where_the_device_is_full_or_fails
} | with_sums

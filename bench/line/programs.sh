# shellcheck shell=bash disable=SC2034 # who sources this reads the variables
# Sourced by the scripts that time the trade: sets `proved` and `plain` to the paths of the two programs, which it builds, and
# `scratch` to a folder that is deleted in the end. Both are built for the same processors.
scratch=$(mktemp -d)
trap 'rm -rf "$scratch"' EXIT
trap 'exit 130' INT
trap 'exit 143' TERM
bench=$(CDPATH='' cd -- "$(dirname -- "${BASH_SOURCE[0]}")/.." && pwd)
proved=$bench/../crates/trade_bench/out/trade_bench
plain=$scratch/plain

echo "proving and building the programs" >&2
if ! (cd "$bench/../crates/trade_bench" && rt run) >"$scratch/log" 2>&1 </dev/null; then
    cat "$scratch/log" >&2
    exit 3
fi
rustc --edition 2021 -O -C target-cpu=x86-64-v2 -o "$plain" "$bench/line/main.rs"

#!/usr/bin/env bash
# Times the proved line and the same mechanism in plain Rust (bench/line), on the same drawn markets:
#
#     bench/line.sh [ROUNDS]
#
# The two programs take turns, 31 rounds if no number is given. For each market it prints the people, the rooms that
# each lists, the kind of market, the asks and looks of one run, the least and the median time of a run of both in
# microseconds, the ratio of the medians, and nanoseconds of the proved line for each ask and look. It fails if the
# two programs differ in asks, looks or rooms. A run allocates its own memory and frees it. Both are built for the same
# processors. It needs `rustc` and the kit.
set -euo pipefail
rounds=${1:-31}
. "$(dirname "$0")/line/programs.sh"

"$proved" >"$scratch/proved.txt"
"$plain" >"$scratch/plain.txt"
if ! cmp -s "$scratch/proved.txt" "$scratch/plain.txt"; then
    echo "line: the programs differ in asks, looks or rooms:" >&2
    diff "$scratch/proved.txt" "$scratch/plain.txt" >&2 || true
    exit 1
fi

# Each column but the last is the same in each round, and the last is the time.
round=0
while [ "$round" -lt "$rounds" ]; do
    "$proved" times | sed 's/^/proved /'
    "$plain" times | sed 's/^/plain /'
    round=$((round + 1))
done >"$scratch/times.txt"

sort -s -k2,4 -k1,1 -k8,8n "$scratch/times.txt" | awk -v order="$scratch/plain.txt" '
{
    market = $2 " " $3 " " $4
    count[$1, market]++
    time[$1, market, count[$1, market]] = $8
}
END {
    print "                                              proved, us        plain Rust, us"
    print "people listed  kind            asks   looks    least   median    least   median  ratio  ns a step"
    while ((getline line < order) > 0) {
        split(line, field, " ")
        market = field[1] " " field[2] " " field[3]
        middle = int((count["proved", market] + 1) / 2)
        proved = time["proved", market, middle]
        plain = time["plain", market, middle]
        printf "%6d %6d  %-13s %6d %7d", field[1], field[2], field[3], field[4], field[5]
        printf " %8.1f %8.1f", time["proved", market, 1] / 1000, proved / 1000
        printf " %8.1f %8.1f", time["plain", market, 1] / 1000, plain / 1000
        printf " %6.2f %10.1f\n", proved / plain, proved / (field[4] + field[5])
    }
}'

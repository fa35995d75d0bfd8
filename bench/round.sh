#!/bin/sh
# Prints a whole round as lines: so many people and rooms, four fifths of the people with a home, and lists of 20 rooms
# drawn by a fixed seed, the same each time with the same awk. To see how long it takes:
#
#     bench/round.sh 500 > /tmp/round.txt
#     time ./rooms rehearse < /tmp/round.txt > /dev/null
#
# With the word mixed after the number the people hand in their lists in a drawn order, and not in that of their names.
set -eu
awk -v people="${1:-500}" -v mixed="${2:-}" '
function drawn(below) { return int(rand() * below) }
BEGIN {
    srand(1999)
    for (i = 0; i < people; i++) printf "room R%04d\n", i
    for (i = 0; i < people; i++) printf "person P%04d key000000000%04d Person %d\n", i, i, i
    for (i = 0; i < people * 4 / 5; i++) printf "home P%04d R%04d\n", i, i
    print "open"
    for (i = 0; i < people; i++) next_one[i] = i
    if (mixed == "mixed") for (i = people - 1; i > 0; i--) {
        other = drawn(i + 1)
        kept = next_one[i]; next_one[i] = next_one[other]; next_one[other] = kept
    }
    for (i = 0; i < people; i++) {
        delete seen
        printf "choose P%04d", next_one[i]
        for (k = 0; k < 20 && k < people; k++) {
            do room = drawn(people); while (room in seen)
            seen[room] = 1
            printf " R%04d", room
        }
        print ""
    }
    printf "close\ndraw"
    for (i = 0; i < people; i++) printf " %08x%08x", drawn(2147483647), drawn(2147483647)
    print "\nrun\nresults\npublish\nsettle\nmoves 1"
}'

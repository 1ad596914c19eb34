#!/bin/sh
# Measures `cover` in one run beside awk, which replays books of plain lines, and beside trials/cover.c, which prints
# the same covers. To be run by hand, from any folder: `bench/cover.sh`, or `SDCA=PROGRAM bench/cover.sh` with a
# program that is built already.
#
# A time is that of a whole run with its start, the least of some rounds; what is printed is thrown away. Plain books
# have one period and one revoked leaf at its end. The others have 4,096 revoked leaves, drawn at random from
# 1,048,576, at the end of each period: period 0 revokes them, and each later period has 1,000 commands, which change
# 500 of them for others. The baseline in C (`cc -O2`) is straightforward: fgets and strtoul, a sorted array, a
# recursion over it, qsort and printf. What both print is compared byte for byte.
#
# It prints for each plain book the times of sdca and awk and their ratio; for each other book the times of sdca and
# C, their ratio, which is to be at most 3, and the time of sdca for each period; and for the greatest book of each
# kind the peak memory of sdca, less the book's file, which is to be at most 64 MiB. The last book has one period and
# as many revoked leaves as there may be, 65,536 of 1,048,576, drawn at random and in ascending order, so that the
# replay is cheap for both and the cover is what is measured.
set -eu
. "$(dirname "$0")/shared.sh"
compile runs
compile cover
rounds=5

# LINES lines: random leaves revoked and subscribed again, but for the last one.
make_plain_book() {
    awk -v lines="$1" 'BEGIN {
        srand(7)
        for (i = 2; i < lines; i += 2) {
            leaf = int(rand() * 1048576)
            print "revoke " leaf
            print "subscribe " leaf
        }
        print "subscribe 5"
        print "revoke 5"
    }' >book
}

cat >replay.awk <<'SCRIPT'
$1 == "revoke" { revoked[$2] = 1 }
$1 == "subscribe" { delete revoked[$2] }
END { count = 0; for (leaf in revoked) count++; print count }
SCRIPT

# OTHER COUNT: the mean microseconds of a run of sdca and of the other program with its words, which take turns, each
# so often.
time_both() {
    for _ in $(seq "$2"); do
        echo "0 ./sdca cover site book"
        echo "0 $1"
    done >list
    for round in $(seq $rounds); do
        ./runs <list >"times.$round" || fail "a run failed"
    done
    least_means 2 times.*
}

show_peak() {
    peak=$(/usr/bin/time -f %M ./sdca cover site book 2>&1 >/dev/null | tail -n 1)
    bytes=$(wc -c <book)
    awk -v peak="$peak" -v bytes="$bytes" 'BEGIN {
        printf "peak memory %.1f MiB, the book file %.1f MiB, the difference %.1f MiB (to reach: 64)\n",
            peak / 1024, bytes / 1048576, peak / 1024 - bytes / 1048576
    }'
}

for lines in 65536 131072 262144 524288 1048576; do
    make_plain_book $lines
    ./sdca cover site book | head -n 1 | grep -q 'revoked 1 sets 1' || fail "wrong answer of sdca"
    awk -f replay.awk book | grep -qx 1 || fail "wrong answer of awk"
    means=$(time_both "awk -f replay.awk book" 1)
    echo "$means" | awk -v n=$lines '{
        printf "%8d lines: sdca %8.2f ms (%.0f ns a line), awk %8.2f ms, ratio %.2f\n",
            n, $1 / 1000, $1 * 1000 / n, $2 / 1000, $1 / $2
    }'
done
show_peak

# PERIODS ROUNDS: the times of sdca and C on the book, after a comparison of what they print.
compare_with_c() {
    ./sdca cover site book >sdca.output || fail "sdca refuses the book"
    ./cover cover site book >c.output || fail "C refuses the book"
    cmp sdca.output c.output || fail "the covers differ"
    rm sdca.output c.output
    means=$(time_both "./cover cover site book" "$2")
    echo "$means" | awk -v n="$1" -v lines="$(wc -l <book)" '{
        printf "%5d periods, %7d lines: sdca %8.2f ms (%.3f ms a period), C %8.2f ms, ratio %.2f (to reach: 3)\n",
            n, lines, $1 / 1000, $1 / 1000 / n, $2 / 1000, $1 / $2
    }'
}

for periods in 1 64 256 1024; do
    make_full_book $periods 4096 500
    compare_with_c $periods $((periods < 20 ? 20 : 1))
done
show_peak

make_book 65536
compare_with_c 1 20
show_peak

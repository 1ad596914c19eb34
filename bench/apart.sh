#!/bin/sh
# Measures `apart` over two sites and their books beside `cover` over the one and the other: both commands read and replay
# two books, `apart` compares them, and `cover` prints their covers. To be run by hand, from any folder:
# `bench/apart.sh`, or `SDCA=PROGRAM [OLD=PROGRAM] bench/apart.sh` with programs that are built already.
#
# The sites have height 20 and control words for 1,024 periods, which are the same of both. Of the books the first has
# one period and 65,536 of the 1,048,576 leaves revoked, drawn at random; the second has 1,024 periods, in each 65,536
# revoked, and a million lines. Each book stands beside itself, so `apart` compares all periods. A time is that of a
# whole run with its start, the least of some rounds in which the commands take turns; what is printed is thrown away.
#
# It prints for each book the time of `apart`, that of `cover` over both, and their ratio, which is to be at most 1.00;
# and the peak memory of `apart`, less the files of both books, which is to be at most 64 MiB.
set -eu
. "$(dirname "$0")/shared.sh"
compile runs
rounds=3
periods=1024

sed -i 's/^ecm-every .*/ecm-every 1/; s/^crypto-ecms .*/crypto-ecms 1/' site
cp site other-site
echo "messages 1
first-word 0
last-word $((periods - 1))
first-period 0" >>site
echo "messages 1
first-word $periods
last-word $((2 * periods - 1))
first-period 0" >>other-site

# PERIODS TEXT COUNT: the commands over `book` of so many periods and its copy, each so often a round.
measure() {
    cp book other-book
    ./sdca apart site book other-site other-book | grep -c "periods 0 to $(($1 - 1))" | grep -qx 2 ||
        fail "apart compares other periods"
    for program in $programs; do
        for _ in $(seq "$3"); do
            echo "0 $program apart site book other-site other-book"
            echo "0 $program cover site book"
            echo "0 $program cover other-site other-book"
        done >list
        rm -f times.*
        for round in $(seq $rounds); do
            ./runs <list >"times.$round" || fail "a run failed"
        done
        least_means 3 times.* | awk -v text="$2" -v program="${program#./}" '{
            both = $2 + $3
            printf "%-28s %-4s apart %9.2f ms, cover of both %9.2f ms, ratio %.2f (to reach: at most 1.00)\n",
                text, program, $1 / 1000, both / 1000, $1 / both
        }'
    done
}

make_book 65536
measure 1 "1 period, 65536 revoked" 20
make_full_book $periods 65536 479
measure $periods "$periods periods, 65536 revoked" 1

if [ -x /usr/bin/time ]; then
    peak=$(/usr/bin/time -f %M ./sdca apart site book other-site other-book 2>&1 >/dev/null | tail -n 1)
    cat book other-book | wc -c | awk -v peak="$peak" '{
        printf "peak memory %.1f MiB, the book files %.1f MiB, the difference %.1f MiB (to reach: at most 64)\n",
            peak / 1024, $1 / 1048576, peak / 1024 - $1 / 1048576
    }'
fi

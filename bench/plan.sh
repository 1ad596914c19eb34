#!/bin/sh
# Measures `plan` beside `cover` over the same book, whose covers it counts and doesn't print; and compares the number of
# packets that it tells with what `head` sends. To be run by hand, from any folder: `bench/plan.sh`, or
# `SDCA=PROGRAM [OLD=PROGRAM] bench/plan.sh` with programs that are built already.
#
# The site has height 20, an ECM before each 200 packets, two ECMs a crypto period and one crypto period a period. The
# books have one period with 1, 4,096 and 65,536 of the 1,048,576 leaves revoked, drawn at random, and 256 periods with
# 4,096 revoked in each; the planned stream reaches all periods. A time is that of a whole run with its start, the least
# of some rounds in which the commands take turns; what is printed is thrown away.
#
# It prints for each book the times of both and their ratio, which is to be at most 1.00.
set -eu
. "$(dirname "$0")/shared.sh"
compile runs
rounds=10
crypto_packets=400
pids=3

# PERIODS TEXT COUNT: both commands over `book`, each so often a round.
measure() {
    packets=$(($1 * crypto_packets))
    ./sdca plan site book $packets $pids | grep -c '^period' | grep -qx "$1" || fail "plan misses a period"
    for program in $programs; do
        for _ in $(seq "$3"); do
            echo "0 $program plan site book $packets $pids"
            echo "0 $program cover site book"
        done >list
        rm -f times.*
        for round in $(seq $rounds); do
            ./runs <list >"times.$round" || fail "a run failed"
        done
        least_means 2 times.* | awk -v text="$2" -v program="${program#./}" '{
            printf "%-28s %-4s plan %9.2f ms, cover %9.2f ms, ratio %.2f (to reach: at most 1.00)\n",
                text, program, $1 / 1000, $2 / 1000, $1 / $2
        }'
    done
}

# PACKETS: `head` sends as many packets of the sample stream as `plan` tells.
compare() {
    ./sdca sample 1 "$1" clear
    ./sdca head site book clear sent || fail "no broadcast is made"
    told=$(./sdca plan site book "$1" $pids | awk '$1 == "clear" { print $6 }')
    [ "$told" = $(($(wc -c <sent) / 188)) ] || fail "head sends another number of packets than plan tells"
}

for revoked in 1 4096 65536; do
    make_book $revoked
    compare 1000
    measure 1 "$revoked revoked" 20
done
make_full_book 256 4096 500
compare 4000
measure 256 "256 periods, 4096 revoked" 1

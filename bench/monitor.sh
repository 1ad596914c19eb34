#!/bin/sh
# Measures `messages` beside `tables` over the same broadcasts. To be run by hand, from any folder: `bench/monitor.sh`, or
# `SDCA=PROGRAM [OLD=PROGRAM] bench/monitor.sh` with programs that are built already.
#
# The site has height 20, an ECM before each 200 packets and two ECMs a crypto period. The broadcasts are of a million
# packets of the sample stream with nobody revoked, and of shorter ones with 4,096 and 65,536 of the 1,048,576 leaves
# revoked, drawn at random, of which almost each packet is a message. They are in memory where there is /dev/shm. A time
# is that of a whole run with its start, the least of some rounds in which the commands take turns; what is printed is
# thrown away.
#
# It prints the rates of both. With nobody revoked `messages` is to take at most 1.10 times the time of `tables`. And it
# prints the peak memory of `messages` with 65,536 revoked for a broadcast and for one ten times as long, which are to
# be the same within 1 MiB, and at most 16 MiB.
set -eu
. "$(dirname "$0")/shared.sh"
compile runs
rounds=7

streams=.
if [ -d /dev/shm ]; then
    streams=$(mktemp -d /dev/shm/monitor.XXXXXX)
    trap 'rm -rf "$work" "$streams"' EXIT
fi
sent=$streams/sent

# PACKETS REVOKED: the broadcast of so many packets with so many leaves revoked.
send() {
    make_book "$2"
    ./sdca sample 1 "$1" "$streams/clear"
    ./sdca head site book "$streams/clear" "$sent" || fail "no broadcast is made"
}

# PACKETS REVOKED AIM: both commands over that broadcast.
measure() {
    send "$1" "$2"
    for program in $programs; do
        printf '0 %s\n' "$program messages site $sent" "$program tables $sent" >list
        rm -f times.*
        for round in $(seq $rounds); do
            ./runs <list >"times.$round" || fail "a run failed"
        done
        lines=$("$program" messages site "$sent" | wc -l)
        echo "$(least_means 2 times.*) $(wc -c <"$sent") $lines" |
            awk -v text="$2 revoked" -v program="${program#./}" -v aim="$3" '{
                printf "%-14s %5.1f MB, %6d lines: %-4s messages %8.1f ms (%6.1f MB/s), ",
                    text, $3 / 1000000, $4, program, $1 / 1000, $3 / $1
                printf "tables %8.1f ms (%6.1f MB/s), ratio %.2f%s\n", $2 / 1000, $3 / $2, $1 / $2, aim
            }'
    done
}

measure 1000000 0 " (to reach: at most 1.10)"
measure 20000 4096 ""
measure 2000 65536 ""

[ -x /usr/bin/time ] || exit 0
for packets in 1000 10000; do
    send $packets 65536
    peak=$(/usr/bin/time -f %M ./sdca messages site "$sent" 2>&1 >/dev/null | tail -n 1)
    echo "peak memory of messages: $peak KiB for a broadcast of $(($(wc -c <"$sent") / 1000000)) MB, 65536 revoked"
    [ "$peak" -le 16384 ] || fail "messages takes more than 16 MiB"
    [ $((peak - ${least:=$peak})) -le 1024 ] || fail "messages takes more memory for a longer broadcast"
done

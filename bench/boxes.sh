#!/bin/sh
# Measures one `receive` over ten broadcasts that follow one another beside ten runs over one each, in one run. To be
# run by hand, from any folder: `bench/boxes.sh`, or `SDCA=PROGRAM bench/boxes.sh` with a program that is built
# already.
#
# The broadcasts are of one channel of height 20, with messages of version 3, an ECM before each 200 packets and two
# ECMs a crypto period. Each has 100,000 packets of another sample stream, control words of its own, and an empty book.
# All files are in memory if there is a /dev/shm. Both ways take turns, the time of ten runs is that of all of them
# together, and the medians of five rounds are shown. What is written is compared byte for byte with the clear streams.
#
# It prints the milliseconds of both and the time of the one in terms of the ten, which is to be at most 1.05; and the
# peak memory of `receive` for one broadcast, for ten and for a hundred, which are the ten again and again, by a pipe:
# all three are to be the same, and at most 8 MiB above a run that only prints `usage`.
set -eu
. "$(dirname "$0")/shared.sh"
rounds=5
packets=100000
broadcasts=10
words=1000
leaf=524288

streams=.
if [ -d /dev/shm ]; then
    streams=$(mktemp -d /dev/shm/boxes.XXXXXX)
    trap 'rm -rf "$work" "$streams"' EXIT
fi
sed -i 's/^ecm-every .*/ecm-every 200/; s/^crypto-ecms .*/crypto-ecms 2/' site
./sdca card site $leaf card
: >book
numbers=$(seq $broadcasts)
for number in $numbers; do
    first=$(((number - 1) * words))
    { cat site && printf 'messages 3\nfirst-word %s\nlast-word %s\n' $first $((first + words - 1)); } >"site-$number"
    ./sdca sample "$number" $packets "$streams/clear"
    ./sdca head "site-$number" book "$streams/clear" "$streams/sent-$number"
    cat "$streams/clear" >>"$streams/all-clear"
    cat "$streams/sent-$number" >>"$streams/all-sent"
done

receive_once() { ./sdca receive card "$streams/all-sent" "$streams/one"; }
receive_each() { for number in $numbers; do ./sdca receive card "$streams/sent-$number" "$streams/each-$number"; done; }

# Writes what the receivers of each wrote, one behind the other.
join_each() { for number in $numbers; do cat "$streams/each-$number"; done; }

: >times.one
: >times.each
for _ in $(seq $rounds); do
    timed receive_once >>times.one
    timed receive_each >>times.each
    cmp -s "$streams/one" "$streams/all-clear" || fail "what is opened of all broadcasts is another stream"
    join_each | cmp -s - "$streams/all-clear" || fail "what is opened of each broadcast is another stream"
done
echo "$(median times.one) $(median times.each)" | awk -v broadcasts=$broadcasts -v packets=$packets '{
    printf "%d broadcasts of %d packets: one run %.1f ms, a run for each %.1f ms, ratio %.3f (to reach: 1.050)\n",
        broadcasts, packets, $1 / 1000, $2 / 1000, $1 / $2
}'

# TIMES: the most memory that a run of sdca held that received all broadcasts this many times, in kilobytes.
peak_of() {
    for _ in $(seq "$1"); do cat "$streams/all-sent"; done |
        /usr/bin/time -f %M ./sdca receive card /dev/stdin /dev/null 2>&1 >/dev/null | tail -n 1
}

if [ -x /usr/bin/time ]; then
    one=$(/usr/bin/time -f %M ./sdca receive card "$streams/sent-1" /dev/null 2>&1 >/dev/null | tail -n 1)
    usage=$(/usr/bin/time -f %M ./sdca 2>&1 >/dev/null | tail -n 1)
    echo "$one $(peak_of 1) $(peak_of 10) $usage" | awk '{
        printf "peak memory: %.1f MiB for one broadcast, %.1f MiB for ten, %.1f MiB for a hundred, " \
            "%.1f MiB above a run that prints usage (to reach: 8)\n",
            $1 / 1024, $2 / 1024, $3 / 1024, ($3 - $4) / 1024
    }'
fi

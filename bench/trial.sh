#!/bin/sh
# Measures `trial` beside the commands that it stands for, one `head` and eight `receive` on files, in one run. To be
# run by hand, from any folder: `bench/trial.sh`, or `SDCA=PROGRAM bench/trial.sh` with a program that is built already.
#
# The site has height 3, an ECM before each 200 packets and two ECMs a crypto period, the book revokes receiver 5 from
# period 1 on, and the clear stream is 60,000 packets of the sample stream. The files are in memory where there is
# /dev/shm, and the cards are made before. Both take turns, a time is that of all runs from start to end, and the
# medians of five rounds are shown. What `trial` prints is compared with the sizes of the files that the others make,
# and with how they end.
#
# It prints the milliseconds of both and how fast `trial` is in terms of the others, which is to be at least 1.0; and
# the peak memory of `trial`, which is to be at most the broadcast and 64 MiB.
set -eu
. "$(dirname "$0")/shared.sh"
rounds=5
packets=60000
receivers="0 1 2 3 4 5 6 7"

streams=.
if [ -d /dev/shm ]; then
    streams=$(mktemp -d /dev/shm/trial.XXXXXX)
    trap 'rm -rf "$work" "$streams"' EXIT
fi
sed -i 's/^ecm-every .*/ecm-every 200/; s/^crypto-ecms .*/crypto-ecms 2/; s/^height .*/height 3/' site
printf 'period\nrevoke 5\n' >book
./sdca sample 7 $packets "$streams/clear"
for leaf in $receivers; do
    ./sdca card site "$leaf" "card.$leaf"
done

together() { ./sdca trial site book "$streams/clear" >printed; }

# Each ending is told as the line of `trial` tells it.
apart() {
    ./sdca head site book "$streams/clear" "$streams/sent"
    for leaf in $receivers; do
        if ./sdca receive "card.$leaf" "$streams/sent" "$streams/opened.$leaf" >ended; then
            echo "done" >ended
        fi
        sed 's/.*period \([0-9]*\).*/revoked \1/' ended >"ended.$leaf"
    done
}

# FILE: how many packets it has.
count() { echo $(($(wc -c <"$1") / 188)); }

: >times.together
: >times.apart
for _ in $(seq $rounds); do
    timed together >>times.together
    timed apart >>times.apart
done

{
    echo "clear $(count "$streams/clear") broadcast $(count "$streams/sent")"
    for leaf in $receivers; do
        echo "receiver $leaf wrote $(count "$streams/opened.$leaf") $(cat "ended.$leaf")"
    done
} >due
cmp -s printed due || fail "trial prints other numbers than the commands come to"

echo "$(median times.together) $(median times.apart)" | awk -v packets=$packets '{
    printf "%d packets, 8 receivers: trial %.1f ms, head and receive %.1f ms, ratio %.2f (to reach: 1.00)\n",
        packets, $1 / 1000, $2 / 1000, $2 / $1
}'
if [ -x /usr/bin/time ]; then
    peak=$(/usr/bin/time -f %M ./sdca trial site book "$streams/clear" 2>&1 >/dev/null | tail -n 1)
    echo "$peak $(wc -c <"$streams/sent")" | awk '{
        sent = $2 / 1048576
        printf "peak memory: %.1f MiB for a broadcast of %.1f MiB (to reach: %.1f)\n", $1 / 1024, sent, sent + 64
    }'
fi

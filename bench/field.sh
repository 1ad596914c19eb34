#!/bin/sh
# Measures `field` beside `trial` over the same clear stream, and a field of power cuts alone. To be run by hand, from
# any folder: `bench/field.sh`, or `SDCA=PROGRAM bench/field.sh` with a program that is built already.
#
# The site has height 5, an ECM before each 200 packets and two ECMs a crypto period, and the clear stream is 15,500
# packets of the sample stream. The script sends all of them, and offers what was sent to each of the 32 receivers; the
# book of the trial has as many periods. So a field of nearly all events that a script may have does the work of a trial.
# What each receiver writes is compared with the clear stream. The files are in memory where there is /dev/shm. Both
# take turns, a time is that of a run from its start to its end, and the medians of five rounds are shown.
#
# It prints the milliseconds of both and how fast `field` is in terms of `trial`, which is to be at least 0.7; its
# events a second; its peak memory, which is to be at most what was sent and written and 64 MiB; and the seconds of
# 262,144 times `off` and `on` at height 6, which are to be at most 15.
set -eu
. "$(dirname "$0")/shared.sh"
rounds=5
packets=15500
cuts=262144
last_receiver=31

streams=.
if [ -d /dev/shm ]; then
    streams=$(mktemp -d /dev/shm/field.XXXXXX)
    trap 'rm -rf "$work" "$streams"' EXIT
fi
sed -i 's/^ecm-every .*/ecm-every 200/; s/^crypto-ecms .*/crypto-ecms 2/; s/^height .*/height 5/' site
sed 's/^height .*/height 6/' site >high-site
: >empty
./sdca sample 7 $packets "$streams/clear"

echo "send $packets" >sends
./sdca field site "$streams/clear" sends >printed
sent=$(awk 'NR == 1 { print $4 }' printed)
awk 'NR == 1 { for (period = 0; period < $6; period++) print "period" }' printed >book
head -n 1 printed >due
{
    cat sends
    for leaf in $(seq 0 $last_receiver); do echo "offer $leaf $sent"; done
} >script
events=$((packets + (last_receiver + 1) * sent))

field() { ./sdca field site "$streams/clear" script >printed; }
trial() { ./sdca trial site book "$streams/clear" >tried; }

: >times.field
: >times.trial
for _ in $(seq $rounds); do
    timed field >>times.field
    timed trial >>times.trial
done

# Without a closing message the packets after the last message aren't written.
[ "$(head -n 1 tried)" = "clear $packets broadcast $((sent + 1))" ] || fail "the trial sends other packets"
wrote=$(awk '$2 == 0 && $1 == "receiver" { print $4 }' printed)
[ "$wrote" -le $packets ] && [ $((packets - wrote)) -le 200 ] || fail "receivers write $wrote of $packets packets"
digest=$(head -c $((wrote * 188)) "$streams/clear" | sha256sum | cut -c 1-32)
for leaf in $(seq 0 $last_receiver); do echo "receiver $leaf wrote $wrote digest $digest"; done >>due
cmp -s printed due || fail "receivers write other packets than the clear stream's"

echo "$(median times.field) $(median times.trial)" | awk -v packets=$packets -v events=$events '{
    printf "%d packets, 32 receivers: field %.1f ms, trial %.1f ms, ratio %.2f (to reach: 0.70)\n",
        packets, $1 / 1000, $2 / 1000, $2 / $1
    printf "%d events: %.2f million a second\n", events, events / $1
}'
if [ -x /usr/bin/time ]; then
    peak=$(/usr/bin/time -f %M ./sdca field site "$streams/clear" script 2>&1 >/dev/null | tail -n 1)
    echo "$peak $(((sent + (last_receiver + 1) * wrote) * 188))" | awk '{
        held = $2 / 1048576
        printf "peak memory: %.1f MiB for %.1f MiB that were sent and written (to reach: %.1f)\n",
            $1 / 1024, held, held + 64
    }'
fi

awk -v cuts=$cuts 'BEGIN { for (cut = 0; cut < cuts; cut++) print "off 0\non 0" }' >script
cut_power() { ./sdca field high-site empty script >printed; }
timed cut_power | awk -v cuts=$cuts '{ printf "%d power cuts: %.1f s (to reach: 15.0)\n", cuts, $1 / 1000000 }'

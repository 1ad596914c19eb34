#!/bin/sh
# Flips single bits of two broadcasts that follow one another, and gives each to `watch`: all bits of the headers and the
# first 16 of what is behind, 14,016 in all. None may end the box before the end of the stream, and none may cost more
# packets than one lost packet may (docs/PROMISES.md, Of a receiver that stays on). To be run by hand, from any folder:
# `trials/flips.sh`, or `SDCA=PROGRAM trials/flips.sh` with a program that is built already. It takes a minute or two and
# needs Python 3.
#
# It prints for each kind of packet how many bits were flipped in it, what the worst of them cost, and what one may cost;
# and the last line is `N passed, M failed`.
set -eu
. "$(dirname "$0")/../bench/shared.sh"

clear_packets=139
{ sed 's/^height .*/height 3/; s/^ecm-every .*/ecm-every 100/; s/^crypto-ecms .*/crypto-ecms 1/' site && echo 'messages 3'; } >lines
for number in 1 2; do
    { cat lines && printf 'first-word %s\nlast-word %s\n' $((number * 10)) $((number * 10 + 9)); } >"site-$number"
    ./sdca sample "$number" $clear_packets "clear-$number"
done
: >book
for number in 1 2; do ./sdca head "site-$number" book "clear-$number" "sent-$number"; done
./sdca card site-1 0 card
cat sent-1 sent-2 >sent
cat clear-1 clear-2 >clear
python3 "$top/trials/flips.py" ./sdca card sent clear

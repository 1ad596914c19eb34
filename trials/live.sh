#!/bin/sh
# Shows that what is decided is handed on while a pipe stays open: what `head` and `receive` have written once they have
# read all and wait for more; the delay of a stream of 200 kbit/s in each, and that of a radio of 64 kbit/s in both; and
# what a head end that is killed leaves. To be run by hand, from any folder: `trials/live.sh`, or `SDCA=PROGRAM
# trials/live.sh` with a program that is built already. OLD=PROGRAM names an older one, which is tried beside it. It
# takes less than a minute and needs Python 3.
#
# It prints a table with what is due. A delay is the median of all packets of 12 seconds; that of `receive` is from the
# ECM that confirms a packet, and that of the radio from the second ECM to the first packet. Of a head end that is
# killed nothing is promised: a signal may cut a write. The exit is 0 if all numbers of the program are as they are due.
set -eu
. "$(dirname "$0")/../bench/shared.sh"

: >book
./sdca card site 0 card
./sdca sample 7 2000 clear
./sdca head site book clear sent
./sdca sample 7 100000 long
# shellcheck disable=SC2086 # one or two programs
python3 "$top/trials/live.py" table $programs

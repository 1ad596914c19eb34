#!/bin/sh
# Gives `watch` a day of a stream of 40 Mbit/s with one damage a second, as fast as it goes: wrong bits, marked packets,
# gaps, garbage and doubled packets in ten broadcasts that follow one another, again and again. To be run by hand, from
# any folder: `trials/always.sh [SECONDS]`, or `SDCA=PROGRAM trials/always.sh [SECONDS]` with a program that is built
# already. SECONDS is the length of the stream, a day if not given, which takes some 20 minutes on two processors.
#
# It shows that the box goes on to the end: the last line's packets and skipped bytes are all the bytes that came; that
# no more packets are lost than the damages explain; and that memory is flat: the peak is that of a stream of ten
# seconds. The last line is `N passed, M failed`.
set -eu
seconds=${1:-86400}
. "$(dirname "$0")/../bench/shared.sh"
compile always -Wall

: >book
sed -i 's/^ecm-every .*/ecm-every 200/; s/^crypto-ecms .*/crypto-ecms 2/' site
numbers=$(seq 10)
set --
for number in $numbers; do
    { cat site && printf 'messages 3\nfirst-word %s\nlast-word %s\n' $((number * 1000)) $((number * 1000 + 999)); } >lines
    ./sdca sample "$number" 100000 clear
    ./sdca head lines book clear "sent-$number"
    set -- "$@" "sent-$number"
done
./sdca card site 0 card

# SECONDS NAME: a stream of this length. NAME.lines has what is printed, NAME.bytes how many bytes came, NAME.peak the
# peak memory in kilobytes.
watch_for() {
    ./always "$1" $broadcasts 2>"$2.bytes" |
        /usr/bin/time -f %M -o "$2.peak" ./sdca watch card /dev/stdin /dev/null >"$2.lines" || :
}
broadcasts=$*
begin=$(date +%s)
watch_for 10 short
watch_for "$seconds" long
end=$(date +%s)

line=$(grep '^{' long.lines | tail -n 1)
field() { echo "$line" | sed "s/.*\"$1\":\\([0-9]*\\).*/\\1/"; }
bytes=$(cat long.bytes)
packets=$(field packets)
written=$(field written)
# Each damage costs at most two packets, the stretches that they are in and a crypto period of the run: 800 packets.
clear=$((packets * 100000 / $(($(wc -c <sent-1) / 188))))
missing=$((clear - written))
echo "$seconds s of stream, $bytes bytes, in $((end - begin)) s: $(grep -c '^{' long.lines) lines; the last ones:"
tail -n 2 long.lines
echo "some $missing clear packets of $clear weren't written, $((missing / seconds)) for a damage"
echo "peak memory: $(tail -n 1 long.peak) kB, of ten seconds $(tail -n 1 short.peak) kB"
row "all bytes are told" [ $((188 * packets + $(field skipped))) = "$bytes" ]
row "no damage costs more than 800 packets" [ "$missing" -le $((800 * seconds)) ]
row "memory is flat" [ "$(tail -n 1 long.peak)" -le $(($(tail -n 1 short.peak) + 256)) ]
end_rows

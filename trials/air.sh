#!/bin/sh
# Tries and measures the head end that stays on the air. To be run by hand, from any folder: `trials/air.sh [SECONDS]`, or
# `SDCA=PROGRAM trials/air.sh [SECONDS]` with a program that is built already. It needs Python 3, and takes some minutes.
#
# First `air` and `head` take turns with a million clean packets: the processor time of `air` is to be at most 1.1 of
# that of `head`. Then `air` gets SECONDS (an hour, if not given) of a clear stream of 40 Mbit/s with one damage a second,
# as fast as it goes: it goes on to the end, all bytes are told, and memory is flat. At last a head end is killed again
# and again, and started again by examples/air.sh, while one box stays on: what it writes are clear packets in order, and
# no keystream is used twice in all that was sent. The last line is `N passed, M failed`.
set -eu
seconds=${1:-3600}
. "$(dirname "$0")/../bench/shared.sh"
compile always -Wall
rounds=5
kills=12
SDCA=$program
export SDCA

# NAME LINES: a chain whose newest site is NAME/site-1.txt, of a book without a line, with these lines in its sites.
make_chain() {
    mkdir "$1"
    : >"$1/book.txt"
    { sed "$2" site && printf 'messages 3\nfirst-word 1\nlast-word 0\nfirst-period 0\n'; } >"$1/site-0.txt"
    ./sdca next "$1/site-0.txt" "$1/book.txt" 100000000 "$1/site-1.txt" >lines
}
make_chain clean 's/^ecm-every .*/ecm-every 200/; s/^crypto-ecms .*/crypto-ecms 2/'

# --- as fast as `head`
./sdca sample 1 1000000 clear
# LIST WORDS..: adds the processor time of a run to the list, in microseconds.
spend() {
    list=$1
    shift
    /usr/bin/time -f '%U %S' -o spent "$@" >lines 2>err
    awk '{ print int(1000000 * ($1 + $2)) }' spent >>"$list"
}
for _ in $(seq $rounds); do
    rm -f clean/site-1.txt.used
    spend head_times ./sdca head clean/site-1.txt clean/book.txt clear by-head
    spend air_times ./sdca air clean/site-1.txt clean/book.txt clear by-air
    row "both send the same" cmp -s by-head by-air
done
echo "$(median head_times) $(median air_times)" | awk '{
    printf "a million packets: head %.0f ms, air %.0f ms of processor time, %.2f (to reach: 1.10)\n", $1 / 1000, $2 / 1000, $2 / $1
}'
row "air takes at most 1.1 of head's time" [ $(($(median air_times) * 10)) -le $(($(median head_times) * 11)) ]
rm by-head by-air

# --- one damage a second
# SECONDS NAME: a clear stream of this length. NAME.line is the report, NAME.bytes how many bytes came.
air_for() {
    rm -f clean/site-1.txt.used
    ./always "$1" clear 2>"$2.bytes" |
        /usr/bin/time -f %M -o "$2.peak" ./sdca air clean/site-1.txt clean/book.txt /dev/stdin /dev/null >"$2.line" 2>err ||
        echo "exit $?"
}
begin=$(date +%s)
air_for 10 short
air_for "$seconds" long
field() { sed "s/.*\"$1\":\\([0-9]*\\).*/\\1/" long.line; }
echo "$seconds s of stream, $(cat long.bytes) bytes, in $(($(date +%s) - begin)) s:"
cat long.line
echo "peak memory: $(tail -n 1 long.peak) kB, of ten seconds $(tail -n 1 short.peak) kB"
row "all bytes are told" [ $((188 * $(field packets) + $(field skipped))) = "$(cat long.bytes)" ]
row "all packets are told" [ $(($(field sent) + $(field marked) + $(field refused))) = "$(field packets)" ]
row "memory is flat" [ "$(tail -n 1 long.peak)" -le $(($(tail -n 1 short.peak) + 256)) ]

# --- a head end that is killed
mkdir live
: >live/book.txt
{ sed 's/^height .*/height 3/' site && printf 'messages 3\nfirst-word 1\nlast-word 0\nfirst-period 0\n'; } >live/site-0.txt
./sdca card live/site-0.txt 0 card
cat >source <<'END'
#!/usr/bin/env python3
import sys, time
data = open(sys.argv[1], "rb").read()
for at in range(0, len(data), 18800):
    sys.stdout.buffer.write(data[at : at + 18800])
    sys.stdout.buffer.flush()
    time.sleep(0.01)
END
chmod +x source
mkfifo line
./sdca watch card line seen >lines 2>err &
box=$!
exec 7>line
set --
for run in $(seq $kills); do
    ./sdca sample "$run" 20000 "clear-$run"
    {
        code=0
        "$top/examples/air.sh" live 1000 /dev/stdout ./source "clear-$run" 2>"err-$run" || code=$?
        echo $code >"exit-$run"
    } | tee "sent-$run" >&7 &
    sender=$!
    if [ "$run" != "$kills" ]; then
        sleep "1.$(((run * 37 + 20) % 70 + 20))"
        pkill -KILL -f " air live/site-$run.txt " || :
    fi
    wait "$sender"
    set -- "$@" "clear-$run" "sent-$run"
done
exec 7>&-
status=0
wait "$box" || status=$?
echo "$kills head ends, of which $((kills - 1)) were killed: exits $(cat exit-* | sort | uniq -c | awk '{ print $2 " (" $1 ")" }' | paste -sd ' ')"
tail -n 2 lines
row "the others were killed" [ "$(cat exit-* | grep -vc '^0$')" = $((kills - 1)) ]
row "the box stayed on to the end" [ $status = 14 ]
row "the last one ended in order" [ "$(cat "exit-$kills")" = 0 ]
row "the box wrote the last broadcast whole" sh -c 'tail -c "$(wc -c <"$1")" seen | cmp -s - "$1"' sh "clear-$kills"
row "no keystream was used twice" python3 "$top/examples/xor.py" "$@"
end_rows

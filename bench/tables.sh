#!/bin/sh
# Measures `tables` on a sample stream of 188 MB beside cat, a C program that copies each packet, and (where they are
# installed) tsinfo and dvbinfo; the CRC of sections beside a C program with a table of 256 entries; the time that a CAT
# of 4,096 bytes takes which is full of items of two bytes, at most 100 microseconds; and compares the lines of the
# streams in a folder with those that an independent program printed. To be run by hand, from any folder:
# bench/tables.sh [FOLDER]. FOLDER has NAME.ts, and beside it NAME.ts.exit-N.stdout, what `tables` is to print for it,
# and its exit status N.
set -eu

folder=${1:+$(CDPATH='' cd "$1" && pwd -P)}
. "$(dirname "$0")/shared.sh"
rounds=5
packets=1000000
few=32000
sections=50000
cats=2000

build_bench
compile tables

./sdca sample 1 $packets stream.ts
./sdca sample 1 $few short.ts
./tables items $cats >items.ts
bytes=$((packets * 188))

tables_ours() { ./sdca tables stream.ts >lines; }
packets_c() { ./tables packets stream.ts >count; }
cat_it() { cat stream.ts >copy; }
tsinfo_it() { tsinfo stream.ts >info 2>&1 || true; }
dvbinfo_it() { dvbinfo <stream.ts >info 2>&1 || true; }
crcs_ours() { "$bench" crcs $sections >ours; }
crcs_c() { ./tables crcs $sections >theirs; }
items_ours() { ./sdca tables items.ts >shown; }

# A file of times for each command, the rounds in turn.
measure() {
    for _ in $(seq $rounds); do
        for each in "$@"; do timed "$each" >>"times.$each"; done
    done
}

# COMMAND BYTES TEXT: its rate.
rate() {
    awk -v n="$2" -v t="$(median "times.$1")" -v text="$3" \
        'BEGIN { printf "%-32s %8.1f ms %8.1f MB/s\n", text, t / 1000, n / t }'
}

others=
for other in tsinfo dvbinfo; do
    command -v $other >which 2>&1 && others="$others ${other}_it"
done
measure tables_ours packets_c cat_it $others crcs_ours crcs_c items_ours
cmp -s ours theirs || fail "the CRCs differ"
[ "$(cat count)" = $packets ] || fail "the C program read other packets"
[ "$(wc -l <lines)" = $((packets / 50)) ] || fail "the lines are not those of all tables"
[ "$(wc -l <shown)" = $cats ] || fail "the lines are not those of all CATs"

rate tables_ours $bytes "tables of $packets packets"
rate packets_c $bytes "C: read, 188 bytes a memcpy"
rate cat_it $bytes "cat to a file"
for other in $others; do rate "$other" $bytes "${other%_it}"; done
rate crcs_ours $((sections * 4096)) "CRC of $sections sections"
rate crcs_c $((sections * 4096)) "C: CRC by a table of 256"
awk -v t="$(median times.tables_ours)" -v c="$(median times.packets_c)" -v n=$bytes \
    -v a="$(median times.crcs_ours)" -v b="$(median times.crcs_c)" 'BEGIN {
    least = n / c / 2 < 400 ? n / c / 2 : 400
    printf "tables: %.2f of what is to be reached (%.0f MB/s); CRC: %.2f times the speed of C\n",
        n / t / least, least, b / a
}'
awk -v t="$(median times.items_ours)" -v n=$cats 'BEGIN {
    printf "a CAT of 4,096 bytes with 2,042 items: %.1f microseconds\n", t / n
    exit t / n > 100
}' || fail "a section full of items takes more than 100 microseconds"
if [ -x /usr/bin/time ]; then
    for each in short stream; do
        /usr/bin/time -f %M ./sdca tables $each.ts >lines 2>peak
        echo "peak memory of tables: $(cat peak) KiB for a file of $(($(wc -c <$each.ts) / 1000000)) MB"
        [ "$(cat peak)" -le 16384 ] || fail "tables takes more than 16 MiB"
    done
fi

[ -n "$folder" ] || exit 0
same=0
for stream in "$folder"/*.ts; do
    due=$(echo "$stream".exit-*.stdout)
    status=0
    ./sdca tables "$stream" >lines || status=$?
    cmp -s lines "$due" && [ "$due" = "$stream.exit-$status.stdout" ] || fail "$(basename "$stream") prints other lines"
    same=$((same + 1))
done
echo "$same streams of $folder print the lines beside them"

#!/bin/sh
# Measures a period's entitlements beside plain C, in one run: the 2,731 sections of 8,191 sets are written, and read
# until one names a set of a leaf that only the last has. To be run by hand, from any folder. It prints the medians of
# five rounds in turn and their ratio, and compares the answers.
set -eu

. "$(dirname "$0")/shared.sh"
rounds=5
periods=400
build_bench
compile messages

emms_ours() { "$bench" emms $periods >ours; }
emms_c() { ./messages emms $periods >theirs; }

for _ in $(seq $rounds); do
    timed emms_ours >>times.ours
    timed emms_c >>times.theirs
    cmp -s ours theirs || fail "the answers differ"
done
awk -v n=$periods -v a="$(median times.ours)" -v b="$(median times.theirs)" 'BEGIN {
    printf "emms: ours %.1f ms (%.1f periods a second), C %.1f ms (%.1f periods a second), " \
        "ratio %.2f of the speed of C\n",
        a / 1000, n / a * 1000000, b / 1000, n / b * 1000000, b / a
}'

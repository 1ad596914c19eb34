#!/bin/sh
# Measures the index of the revoked leaves at height 20, in one run, beside a cover from scratch for each period and
# beside a C program with a hash table (bench/index.c), which takes the same random commands and whose answers are
# compared. To be run by hand, from any folder. It needs the program of the lower crates' work alone, so SDCA may name
# any program.
#
# A time is the median of five rounds in turn, less that of the same run without a period, which revokes the leaves
# that are revoked at first. Wide periods have 1,000 commands and 65,536 revoked leaves, narrow ones 100 and 10,000.
# Of a period the commands are timed, and what the sets add to them; a cover from scratch is what it adds to a sorted
# list that takes the commands. It prints the times for each period, the ratios that are to be reached, and the bytes
# of the index for each node that counts.
set -eu

SDCA=${SDCA:-/bin/true}
. "$(dirname "$0")/shared.sh"
rounds=5
build_bench
compile index

# WORK PERIODS: a file of times for each program and number of periods, the rounds in turn.
measure() {
    for periods in 0 "$2"; do
        ours() { "$bench" "$1" "$2" >ours; }
        theirs() { ./index "$1" "$2" >theirs 2>nodes; }
        for _ in $(seq $rounds); do
            timed ours "$1" "$periods" >>"ours.$1.$periods"
            case $1 in *listed | *fresh) continue ;; esac
            timed theirs "$1" "$periods" >>"theirs.$1.$periods"
            cmp -s ours theirs || fail "the answers of $1 differ"
        done
    done
}

# PROGRAM WORK PERIODS: the microseconds of a period.
period() {
    echo "$(median "$1.$2.$3") $(median "$1.$2.0") $3" | awk '{ print ($1 - $2) / $3 }'
}

# KIND PREFIX PERIODS
show() {
    for work in changes kept listed fresh; do measure "$2$work" "$3"; done
    {
        for work in changes kept listed fresh; do period ours "$2$work" "$3"; done
        for work in changes kept; do period theirs "$2$work" "$3"; done
    } | xargs | awk -v kind="$1" '{
        printf "%s: commands %.1f us a period, C %.1f us, %.2f of the speed of C (to reach: 0.8)\n",
            kind, $1, $5, $5 / $1
        printf "%s: commands and sets %.1f us, C %.1f us, %.2f of the speed of C (to reach: 0.8)\n",
            kind, $2, $6, $6 / $2
        printf "%s: sets %.1f us, a cover from scratch %.1f us, ratio %.2f (to reach: 2)\n",
            kind, $2 - $1, $4 - $3, ($2 - $1) / ($4 - $3)
        printf "%s: a cover from scratch takes %.1f times as long as the commands of a period\n", kind, ($4 - $3) / $1
    }'
}

show "1,000 commands, 65,536 revoked" "" 1024
show "100 commands, 10,000 revoked" few- 1024
echo "(the last ratio is to be at least 20 with 100 commands and 10,000 revoked)"

# WORK PERIODS: the most memory that a run held, in kilobytes.
peak() { /usr/bin/time -f %M "$bench" "$1" "$2" 2>&1 >/dev/null | tail -n 1; }

./index changes 1 2>nodes >/dev/null
echo "$(peak changes 1) $(peak listed 1) $(cut -d ' ' -f 1 nodes)" | awk '{
    printf "memory: %.1f MiB, that of a sorted list in its place %.1f MiB, " \
        "%d nodes count: %.1f bytes a node (to reach: 64)\n",
        $1 / 1024, $2 / 1024, $3, ($1 - $2) * 1024 / $3
}'

#!/bin/sh
# Measures the tracing of coalitions beside trials/trace.c, which does the same in C (`cc -O2`).
# To be run by hand, from any folder: `bench/trace.sh`. The first run proves and builds sd_bench.
#
# The tree has height 20, 1,000 random leaves are revoked, and the coalition has 10, 100 and 1,000 random leaves; the
# box looks at them one by one. A time is that of a whole run less that of a coalition of one leaf, the least of some
# rounds in turn: 10 of 10 and of 100 leaves, and one of 1,000, which takes each program about half a minute. Both
# programs come to a number of all leaves that are found, in their order, with their trials and splits, and these are
# compared.
#
# It prints for each coalition the probes and the time of a found leaf, and the ratio of the times, which is to be at
# least 0.5; and by how many the probes of a leaf are at least fewer than 22 and the logarithm of the number of sets,
# which they are not to pass.
set -eu
SDCA=${SDCA:-/bin/true}
. "$(dirname "$0")/shared.sh"
build_bench
compile trace

# LEAVES ROUNDS: a file of times for each program, the rounds in turn.
measure() {
    ours() { "$bench" traces "$1" >ours; }
    theirs() { ./trace traces "$1" >theirs 2>"counts.$1"; }
    for _ in $(seq "$2"); do
        timed ours "$1" >>"ours.$1"
        timed theirs "$1" >>"theirs.$1"
        cmp -s ours theirs || fail "the traces of $1 leaves differ"
    done
}

least() { sort -n "$1" | head -n 1; }

measure 1 20
for leaves in 10 100 1000; do
    measure $leaves $((1000 / leaves > 10 ? 10 : 1000 / leaves))
    echo "$(least ours.$leaves) $(least ours.1) $(least theirs.$leaves) $(least theirs.1) $(cat counts.$leaves)" |
        awk '{
        ours = ($1 - $2) / ($5 - 1)
        theirs = ($3 - $4) / ($5 - 1)
        printf "%4d leaves: %.1f probes a leaf, at least %d fewer than they may be (to reach: 0), ", $5, $6 / $5, -$7
        printf "%d sets at the end\n", $8
        printf "%4d leaves: %.1f us a leaf, C %.1f us, %.2f of the speed of C (to reach: 0.5)\n",
            $5, ours, theirs, theirs / ours
    }'
done

#!/bin/sh
# many-cards.sh [CARDS]: so many cards of a tree of height 20, a thousand if none are named: one after the other, as
# many at a time as there are processors by xargs, and by GNU parallel, a Debian package; and what a million take at
# this pace. Of a card in turn it says what part is the start of a process: that of `true`, which does nothing, and that
# of the program, which prints its version.
. "$(dirname "$0")/shared.sh"

count=${1:-1000}
command -v parallel >/dev/null || fail "GNU parallel is wanted: apt-get install parallel"
processors=$(getconf _NPROCESSORS_ONLN)

in_turn() { seq 0 $((count - 1)) | xargs -I{} ./sdca card site {} card-{}; }
by_xargs() { seq 0 $((count - 1)) | xargs -P "$processors" -I{} ./sdca card site {} card-{}; }
starts_of() { seq "$count" | xargs -I{} "$@" >/dev/null; }
by_parallel() {
    seq 0 $((count - 1)) | parallel --pipe -N 50 'while read -r u; do ./sdca card site "$u" "card-$u"; done'
}

# NAME COMMAND
tell() {
    rm -f card-*
    took=$(timed "$2")
    [ "$(ls | grep -c '^card-')" -eq "$count" ] || fail "not all cards were made"
    awk -v name="$1" -v count="$count" -v took="$took" 'BEGIN {
        printf "%-12s %d cards in %.2f s, %.2f ms each; a million in %.0f min\n",
            name, count, took / 1e6, took / 1e3 / count, took / count / 60
    }'
}

printf 'a card of height 20 has %s bytes; %s processors\n' "$(./sdca card site 0 one && wc -c <one)" "$processors"
tell "in turn" in_turn
awk -v count="$count" -v card="$took" -v none="$(timed starts_of true)" \
    -v start="$(timed starts_of ./sdca version)" 'BEGIN {
        printf "of %.2f ms a card in turn %.2f ms are a start of true, %.2f ms a start of sdca: %.0f %% is start\n",
            card / 1e3 / count, none / 1e3 / count, start / 1e3 / count, 100 * start / card
    }'
tell "xargs -P" by_xargs
tell "parallel" by_parallel

#!/bin/sh
# Measures `card` at height 20 beside trials/cards.c, which makes the same cards with OpenSSL's SHA-256, in one run. To
# be run by hand, from any folder: `bench/cards.sh`, or `SDCA=PROGRAM bench/cards.sh` with a program that is built
# already.
#
# Both programs make the cards of the same 500 leaves, one run a card, each into a new file. As many runs of both that
# only print `usage` are taken off, so that neither pays for its start. C is not held back: `cc -O2`, the quickest
# calls of OpenSSL, which is linked into the program where its archive is there (a shared library is paged in at the
# first hash, and that would be counted), and each path walked once: 422 digests a card. A run's time is its least of
# some rounds, in which the programs take turns. The cards of both are compared byte for byte.
#
# It prints for cards in memory (a folder in /dev/shm, where that is there) and for cards on disk (the usual temporary
# folder) the milliseconds of both programs for all cards, for the runs that were taken off and for what is left, and
# the ratio of what is left, which is to be at most 1.36. A disk takes as long for both, so the ratio in memory is the
# stricter one. Without OpenSSL's headers it says so and measures nothing.
set -eu
. "$(dirname "$0")/shared.sh"
compile runs
rounds=10

if ! echo '#include <openssl/sha.h>' | cc -E - >/dev/null 2>&1; then
    echo "skipped: the headers of OpenSSL are not there"
    exit 0
fi
compile cards -Wl,-Bstatic -lcrypto -Wl,-Bdynamic 2>/dev/null || compile cards -lcrypto

# FOLDER: runs of 500 of the 1,048,576 leaves, in rounds.
time_cards() {
    for leaf in $(seq 0 2099 1047401); do
        echo "1 ./sdca"
        echo "0 ./sdca card site $leaf $1/sdca/$leaf"
        echo "1 ./cards"
        echo "0 ./cards card site $leaf $1/c/$leaf"
    done >list
    for round in $(seq $rounds); do
        rm -rf "$1/sdca" "$1/c"
        mkdir "$1/sdca" "$1/c"
        ./runs <list >"times.$round" || fail "a run failed"
    done
}

# FOLDER PLACE: the cards are the same, and the times are shown.
show_cards() {
    for card in "$1"/c/*; do
        cmp "$card" "$1/sdca/${card##*/}" || fail "the cards differ"
    done
    means=$(least_means 4 times.*)
    echo "$means" | awk -v place="$2" '
        function show(name, all, start) {
            printf "500 cards %s: %-4s %6.1f ms - %6.1f ms of usage = %6.1f ms\n",
                place, name, all / 2, start / 2, (all - start) / 2
        }
        {
            show("sdca", $2, $1)
            show("C", $4, $3)
            printf "500 cards %s: ratio %.2f (to reach: 1.36)\n", place, ($2 - $1) / ($4 - $3)
        }'
}

if [ -d /dev/shm ]; then
    memory=$(mktemp -d /dev/shm/cards.XXXXXX)
    trap 'rm -rf "$work" "$memory"' EXIT
    ln -s "$memory" memory
    time_cards memory
    show_cards memory "in memory"
fi
mkdir disk
time_cards disk
show_cards disk "on disk"

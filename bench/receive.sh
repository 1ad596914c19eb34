#!/bin/sh
# Measures `receive` beside trials/receive.c, which opens the same broadcasts with OpenSSL's ChaCha20 and SHA-256, in
# one run. To be run by hand, from any folder: `bench/receive.sh`, or `SDCA=PROGRAM [OLD=PROGRAM] bench/receive.sh`
# with programs that are built already. An older program named by OLD takes its turn too.
#
# Both programs open broadcasts of the sample stream by a card of a site of height 20, with an ECM before each 200
# packets and two ECMs a crypto period, from a file into a new file, in memory where there is /dev/shm. C is not held
# back: `cc -O2`, the quickest calls of OpenSSL, and one key schedule a segment. The programs take turns, a time is
# that of a whole run, the medians of five rounds are shown, and what both make is compared byte for byte with the
# clear stream.
#
# It prints for 188 MB under an empty book, for 20 MB with 4,096 leaves revoked and for 4 MB with 65,536 revoked,
# drawn at random, the rate in MB/s of the broadcast for each program and how fast it is in terms of C, which is to be
# at least 1.20, 1.8 and 2.1; and the peak memory of sdca for 188 MB, for a tenth of it and for a run that only prints
# `usage`: the first two are to be the same, and at most 8 MiB above the last. Without OpenSSL's headers it says so and
# measures nothing.
set -eu
. "$(dirname "$0")/shared.sh"
rounds=5
leaf=524288

if ! echo '#include <openssl/evp.h>' | cc -E - >/dev/null 2>&1; then
    echo "skipped: the headers of OpenSSL are not there"
    exit 0
fi
compile receive -Wno-deprecated-declarations -lcrypto

streams=.
if [ -d /dev/shm ]; then
    streams=$(mktemp -d /dev/shm/receive.XXXXXX)
    trap 'rm -rf "$work" "$streams"' EXIT
fi
sed -i 's/^ecm-every .*/ecm-every 200/; s/^crypto-ecms .*/crypto-ecms 2/' site
./sdca card site $leaf card

# PROGRAM: what it opens, under its own name.
receive_by() { "./$1" receive card "$streams/sent" "$streams/by-$1"; }

# COUNT: a book that revokes so many of the 1,048,576 leaves, drawn at random, in ascending order, but not the card's.
make_book() {
    awk -v most="$1" -v spared="$leaf" 'BEGIN {
        srand(7)
        revoked[spared]
        for (count = 0; count < most; count++) {
            do other = int(rand() * 1048576); while (other in revoked)
            revoked[other]
            print other
        }
    }' | sort -n | sed 's/^/revoke /' >book
}

# PACKETS REVOKED: the broadcast of so many packets with so many leaves revoked.
send() {
    ./sdca sample 1 "$1" "$streams/clear"
    make_book "$2"
    ./sdca head site book "$streams/clear" "$streams/sent"
}

# PACKETS REVOKED RATIO: the programs on that broadcast, and what is to be reached.
measure() {
    send "$1" "$2"
    rm -f times.*
    for _ in $(seq $rounds); do
        for each in $programs ./receive; do
            timed receive_by "${each#./}" >>"times.${each#./}"
            cmp -s "$streams/by-${each#./}" "$streams/clear" || fail "$each opens another stream of $1 packets"
        done
    done
    sent=$(wc -c <"$streams/sent")
    for each in $programs; do
        awk -v packets="$1" -v revoked="$2" -v sent="$sent" -v reach="$3" -v name="${each#./}" \
            -v a="$(median "times.${each#./}")" -v b="$(median times.receive)" 'BEGIN {
            printf "%5.1f MB, %5d revoked, %5.1f MB sent: %-4s %8.1f ms (%.1f MB/s, %.0f ns a packet sent), ",
                packets * 188 / 1000000, revoked, sent / 1000000, name, a / 1000, sent / a, a * 1000 * 188 / sent
            printf "C %8.1f ms (%.1f MB/s), ratio %.2f (to reach: %s)\n", b / 1000, sent / b, b / a, reach
        }'
    done
}

# WORDS..: the most memory that a run of sdca held, in kilobytes.
peak() { /usr/bin/time -f %M ./sdca "$@" 2>&1 >/dev/null | tail -n 1; }

measure 1000000 0 1.20
measure 106383 4096 1.8
measure 21277 65536 2.1

if [ -x /usr/bin/time ]; then
    send 1000000 0
    long=$(peak receive card "$streams/sent" "$streams/by-sdca")
    send 100000 0
    short=$(peak receive card "$streams/sent" "$streams/by-sdca")
    echo "$long $short $(peak)" | awk '{
        printf "peak memory: %.1f MiB for 188 MB, %.1f MiB for a tenth of it, " \
            "%.1f MiB above a run that prints usage (to reach: 8)\n",
            $1 / 1024, $2 / 1024, ($1 - $3) / 1024
    }'
fi

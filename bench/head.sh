#!/bin/sh
# Measures `head` beside trials/head.c, which makes the same broadcasts with OpenSSL's ChaCha20 and SHA-256, in one
# run. To be run by hand, from any folder: `bench/head.sh`, or `SDCA=PROGRAM [OLD=PROGRAM] bench/head.sh` with programs
# that are built already. An older program named by OLD takes its turn too.
#
# Both programs go over packets of the sample stream with a site of height 20, an ECM before each 200 packets and two
# ECMs a crypto period, from a file into a new file, in memory where there is /dev/shm. C is not held back: `cc -O2`,
# the quickest calls of OpenSSL, and it keeps the packets of a period's entitlements too. The programs take turns, a
# time is that of a whole run, the medians of five rounds are shown, and the broadcasts of both are compared byte for
# byte.
#
# It prints for 188 MB under an empty book, for 20 MB with 4,096 leaves revoked and for 4 MB with 65,536 revoked,
# drawn at random, the rate in MB/s of the clear stream for each program and how fast it is in terms of C, which is to
# be at least 1.10, 0.95 and 0.90; and the peak memory of sdca for 188 MB and for a tenth of it, which is to be the
# same, and at most 24 MiB. Without OpenSSL's headers it says so and measures nothing.
set -eu
. "$(dirname "$0")/shared.sh"
rounds=5

if ! echo '#include <openssl/evp.h>' | cc -E - >/dev/null 2>&1; then
    echo "skipped: the headers of OpenSSL are not there"
    exit 0
fi
compile head -lcrypto

streams=.
if [ -d /dev/shm ]; then
    streams=$(mktemp -d /dev/shm/head.XXXXXX)
    trap 'rm -rf "$work" "$streams"' EXIT
fi

# PROGRAM: the broadcast that it makes, under its own name.
head_by() { "./$1" head site book "$streams/clear" "$streams/by-$1"; }

# PACKETS REVOKED RATIO: the programs on so many packets with so many leaves revoked, and what is to be reached.
measure() {
    ./sdca sample 1 "$1" "$streams/clear"
    make_book "$2"
    rm -f times.*
    for _ in $(seq $rounds); do
        for each in $programs ./head; do
            timed head_by "${each#./}" >>"times.${each#./}"
            cmp -s "$streams/by-sdca" "$streams/by-${each#./}" || fail "the broadcasts of $1 packets differ"
        done
    done
    sent=$(wc -c <"$streams/by-sdca")
    for each in $programs; do
        awk -v packets="$1" -v revoked="$2" -v sent="$sent" -v reach="$3" -v name="${each#./}" \
            -v a="$(median "times.${each#./}")" -v b="$(median times.head)" 'BEGIN {
            bytes = packets * 188
            printf "%5.1f MB, %5d revoked, %5.1f MB sent: %-4s %8.1f ms (%.1f MB/s, %.0f ns a packet sent), ",
                bytes / 1000000, revoked, sent / 1000000, name, a / 1000, bytes / a, a * 1000 * 188 / sent
            printf "C %8.1f ms (%.1f MB/s), ratio %.2f (to reach: %s)\n", b / 1000, bytes / b, b / a, reach
        }'
    done
}

# PACKETS: the most memory that a run of sdca held, in kilobytes.
peak() {
    ./sdca sample 1 "$1" "$streams/clear"
    /usr/bin/time -f %M ./sdca head site book "$streams/clear" "$streams/by-sdca" 2>&1 >/dev/null | tail -n 1
}

measure 1000000 0 1.10
measure 106383 4096 0.95
measure 21277 65536 0.90

if [ -x /usr/bin/time ]; then
    : >book
    echo "$(peak 1000000) $(peak 100000)" | awk '{
        printf "peak memory: %.1f MiB for 188 MB (to reach: 24), %.1f MiB for a tenth of it\n", $1 / 1024, $2 / 1024
    }'
fi

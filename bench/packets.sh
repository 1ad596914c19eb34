#!/bin/sh
# Measures header fields, scrambled payloads and the sample stream beside plain C (ChaCha20 by OpenSSL), in one run.
# To be run by hand, from any folder. It prints the medians of five rounds in turn and their ratios, and compares the
# answers.
set -eu

. "$(dirname "$0")/shared.sh"
rounds=5
headers=10000000
payloads=2000000
packets=1000000

build_bench
evp=yes
echo '#include <openssl/evp.h>' >probe.c
cc -E probe.c >probe 2>&1 || evp=
if [ -n "$evp" ]; then
    compile packets -DWITH_EVP -lcrypto
else
    compile packets
fi

headers_ours() { "$bench" headers $headers >ours; }
headers_c() { ./packets headers $headers >theirs; }
scramble_ours() { "$bench" scramble $payloads >ours; }
scramble_c() { ./packets scramble $payloads >theirs; }
sample_ours() { ./sdca sample 1 $packets ours; }
sample_c() { ./packets sample 1 $packets theirs; }

# WORK COUNT UNIT SCALE: times both sides in turn; the rate is COUNT / SCALE of the unit a second.
compare() {
    : >times.ours
    : >times.theirs
    for _ in $(seq $rounds); do
        timed "$1_ours" >>times.ours
        timed "$1_c" >>times.theirs
        cmp -s ours theirs || fail "$1: the answers differ"
    done
    awk -v name="$1" -v n="$2" -v unit="$3" -v scale="$4" \
        -v a="$(median times.ours)" -v b="$(median times.theirs)" 'BEGIN {
        printf "%-8s: ours %8.1f ms (%.1f %s), C %8.1f ms (%.1f %s), ratio %.2f of the speed of C\n",
            name, a / 1000, n / a * 1000000 / scale, unit, b / 1000, n / b * 1000000 / scale, unit, b / a
    }'
}

compare headers $headers "million a second" 1000000
if [ -n "$evp" ]; then
    compare scramble $payloads "million a second" 1000000
else
    echo "scramble: no openssl/evp.h here, so this part is left out"
fi
compare sample $((packets * 188)) "MB/s" 1000000

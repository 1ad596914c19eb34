#!/bin/sh
# Runs every command at its limits, in ample memory: all of them must be done. A line for each run has its seconds and
# what it was; the last line is `N done, M failed`. It takes some minutes and 2 GB of memory and of disk. To be run by
# hand, from any folder: `trials/limits.sh`, or `SDCA=PROGRAM trials/limits.sh` with a program that is built already.
. "$(dirname "$0")/../bench/shared.sh"

finished=0
failed=0

# TEXT WORDS..: the command is done. Its lines are in `lines`.
done_is() {
    text=$1
    shift
    status=0
    start=$(date +%s%N)
    ./sdca "$@" >lines 2>complaints || status=$?
    seconds=$(awk -v ns=$(($(date +%s%N) - start)) 'BEGIN { printf "%.2f", ns / 1e9 }')
    if [ "$status" -eq 0 ]; then
        finished=$((finished + 1))
        echo "$seconds s: $1 of $text"
    else
        failed=$((failed + 1))
        echo "FAILED: $1 of $text: exit $status, $(tail -n 1 lines)"
    fi
}

# TEXT TEST..: the test holds.
holds() {
    text=$1
    shift
    if "$@"; then
        finished=$((finished + 1))
    else
        failed=$((failed + 1))
        echo "FAILED: $text"
    fi
}

first_line_is() { [ "$(head -n 1 lines)" = "$1" ]; }
has_lines() { [ "$(wc -l <lines)" -eq "$1" ]; }
has_bytes() { [ "$(wc -c <"$2")" -eq "$1" ]; }

# Sites, all of height 20: each control message of its own crypto period and period; the widest and the longest.
sed 's/^ecm-every .*/ecm-every 1/; s/^crypto-ecms .*/crypto-ecms 1/' site >short-site
sed 's/^ecm-every .*/ecm-every 4096/' site >wide-site
{
    sed -n 1,3p site
    printf 'emm 8174\necm 8175\necm-every 4096\ncrypto-ecms 256\nperiod-cryptos 65535\nmessages 2\n'
    printf 'first-word 4294967295\nlast-word 4294967295\nfirst-period 4294967295\n'
} >longest-site
sed 's/^height .*/height 6/; s/^ecm-every .*/ecm-every 1/' site >low-site

# Books: 2^20 lines of 18 bytes, 1,023 ends of periods, 65,536 revoked receivers, and two fewer.
awk 'BEGIN { for (i = 0; i < 1048576; i++) print "subscribe 1048575" }' >longest-book
awk 'BEGIN { for (i = 0; i < 1023; i++) print "period" }' >periods-book
awk 'BEGIN { for (i = 0; i < 65536; i++) print "revoke " 16 * i }' >revoked-book
sed '1,2d' revoked-book >traced-book
: >empty-book
printf '0\n1048575\n' >leaves
awk 'BEGIN { for (i = 0; i < 1048576; i++) print "assign n" i " " i }' >accounts

has_bytes 238 longest-site || fail "the longest site has another length"
has_bytes 18874368 longest-book || fail "the longest book has another length"

# A clear stream of 256 PIDs, each packet with payload and its continuity counter.
python3 - >many-pids <<'PYTHON'
import sys
for packet in range(12289):
    pid, counter = 32 + packet % 256, packet // 256 % 16
    head = bytes([0x47, pid >> 8, pid & 255, 0x10 | counter])
    sys.stdout.buffer.write(head + bytes((packet * 7 + i) % 256 for i in range(184)))
PYTHON
./sdca sample 7 1100 clear || fail "no clear stream is made"
./sdca sample 7 65536 long-clear || fail "no long clear stream is made"
./sdca sample 7 16384 field-clear || fail "no clear stream of a field is made"

# A script of 524,288 events.
awk 'BEGIN { print "send 16384"; for (leaf = 0; leaf < 64; leaf++) print "offer", leaf, 7936 }' >script

for name in longest periods revoked; do
    done_is "the $name book" cover site $name-book
    case $name in
        periods) holds "1,024 periods have two lines each" has_lines 2048 ;;
        revoked) holds "65,536 are revoked" first_line_is "period 0 revoked 65536 sets 65536" ;;
    esac
    done_is "the $name book" layered site $name-book 5
    done_is "the $name book" opens site $name-book leaves
    done_is "the $name book" head short-site $name-book clear broadcast
done
for name in longest periods traced; do
    done_is "the $name book" trace site $name-book leaves
done

done_is "the longest site" cover longest-site empty-book
done_is "the longest site" card longest-site 1048575 card
done_is "height 20" card site 1048575 card
holds "a card of height 20 has 6,780 bytes" has_bytes 6780 card
done_is "height 20" lcard site 1048575 1 layer-card
done_is "1,000,000 packets" sample 4294967295 1000000 sample
done_is "1,048,576 lines" accounts site accounts book
done_is "the longest book" book site empty-book longest-book longer
done_is "height 6" trial low-site empty-book clear
done_is "65,536 packets and an ECM before each" trial low-site empty-book long-clear
done_is "16,384 packets and 524,288 events" field low-site field-clear script
done_is "256 PIDs" head wide-site empty-book many-pids broadcast
done_is "256 PIDs and 4,096 packets held" receive card broadcast opened
holds "it opens the clear stream" cmp -s many-pids opened
done_is "256 PIDs" tables broadcast

echo "$finished done, $failed failed"
[ "$failed" -eq 0 ]

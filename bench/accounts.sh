#!/bin/sh
# Measures `accounts` beside awk doing the same bookkeeping, in one run. To be run by hand, from any folder:
# `bench/accounts.sh`, or `SDCA=PROGRAM [OLD=PROGRAM] bench/accounts.sh` with programs that are built already. An older
# program named by OLD takes its turn too.
#
# The accounts file has 1,048,576 lines for a site of height 20: 500,000 names that are assigned leaves in no order, and
# then names that are dropped and restored, drawn at random, with 1,000 periods and at most 65,536 names dropped at a
# time. awk judges the form of each line, keeps each name's leaf and whether it is active, writes the book and hands its
# accounts to `sort`, whose order is that of the report. Both take turns, a time is that of a whole run, the medians of
# five rounds are shown, and the books and the reports are compared byte for byte. The files are in memory where there
# is /dev/shm.
#
# It prints the milliseconds of each and what part of awk's time sdca takes, which is to be at most 0.25, and the peak
# memory, which is to be at most 160 MiB.
set -eu
. "$(dirname "$0")/shared.sh"
rounds=5

files=.
if [ -d /dev/shm ]; then
    files=$(mktemp -d /dev/shm/accounts.XXXXXX)
    trap 'rm -rf "$work" "$files"' EXIT
fi

awk 'BEGIN {
    srand(7)
    names = 500000
    lines = 1048576
    for (name = 0; name < names; name++)
        printf "assign name-%d %d\n", (name * 7919) % names, (name * 611953) % 1048576
    dropped = 0
    for (line = names; line < lines; line++) {
        if (line % 548 == 0) { print "period"; continue }
        name = int(rand() * names)
        if (name in out) { print "restore name-" name; delete out[name]; dropped-- }
        else if (dropped < 65536) { print "drop name-" name; out[name]; dropped++ }
        else print "restore name-" name
    }
}' >"$files/accounts"
[ "$(wc -l <"$files/accounts")" = 1048576 ] || fail "the accounts file has another number of lines"

# PROGRAM: its book and its report.
accounts_by() { "$1" accounts site "$files/accounts" "$files/ours" >"$files/reported"; }

accounts_awk() {
    awk -v book="$files/theirs" -v last="$files/last" '
        function refuse() { print "line " NR " is refused"; exit 7 }
        $1 == "assign" && NF == 3 {
            if ($2 !~ /^[a-z0-9-]+$/ || length($2) > 32 || $3 !~ /^(0|[1-9][0-9]*)$/ || $3 >= 1048576) refuse()
            if ($2 in leaf || $3 in taken) refuse()
            leaf[$2] = $3
            taken[$3]
            active[$2] = "true"
            print "subscribe " $3 >book
            next
        }
        $1 == "drop" && NF == 2 {
            if (!($2 in leaf)) refuse()
            if (active[$2] == "true") revoked++
            active[$2] = "false"
            print "revoke " leaf[$2] >book
            next
        }
        $1 == "restore" && NF == 2 {
            if (!($2 in leaf)) refuse()
            if (active[$2] == "false") revoked--
            active[$2] = "true"
            print "subscribe " leaf[$2] >book
            next
        }
        $1 == "period" && NF == 1 {
            if (++period > 1023 || revoked > 65536) refuse()
            print "period" >book
            next
        }
        { refuse() }
        END {
            if (revoked > 65536) refuse()
            for (name in leaf) print name, active[name], leaf[name]
            print period >last
        }' "$files/accounts" | LC_ALL=C sort | awk -v last="$files/last" '
        BEGIN { printf "{\"accounts\":[" }
        { printf "%s{\"active\":%s,\"leaf\":%s,\"name\":\"%s\"}", between, $2, $3, $1; between = "," }
        END {
            getline period <last
            printf "],\"height\":20,\"period\":%s}\n", period
        }' >"$files/awk"
}

for _ in $(seq $rounds); do
    timed accounts_awk >>times.awk
    for each in $programs; do
        timed accounts_by "$each" >>"times.${each#./}"
        cmp -s "$files/ours" "$files/theirs" || fail "the books differ"
        cmp -s "$files/reported" "$files/awk" || fail "the reports differ"
    done
done
for each in $programs; do
    echo "$(median "times.${each#./}") $(median times.awk)" | awk -v name="${each#./}" '{
        printf "1,048,576 lines, 500,000 names: %-4s %.1f ms, awk %.1f ms, ratio %.2f (to reach: 0.25)\n",
            name, $1 / 1000, $2 / 1000, $1 / $2
    }'
    if [ -x /usr/bin/time ]; then
        /usr/bin/time -f %M "$each" accounts site "$files/accounts" "$files/ours" 2>&1 >/dev/null | tail -n 1 |
            awk -v name="${each#./}" '{ printf "peak memory of %s: %.1f MiB (to reach: 160)\n", name, $1 / 1024 }'
    fi
done

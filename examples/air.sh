#!/bin/sh
# air.sh FOLDER WORDS OUT COMMAND ..: a head end on air. It waits for what COMMAND writes, which is the clear stream, then
# makes the next site of FOLDER, with WORDS control words, and sends with it into OUT. It ends as `sdca air` does, or with
# exit 0 if COMMAND wrote nothing; then no site was made. SIGTERM ends COMMAND, with all that it began, and not the head
# end, so that the broadcast gets its closing message.
# FOLDER has book.txt and the sites site-0.txt, site-1.txt and so on. Any number of these may begin at once.
# SDCA=PROGRAM names the program.

set -u

fail() {
    echo "air.sh: $2" >&2
    exit "$1"
}

[ $# -gt 3 ] || fail 1 "its arguments are FOLDER WORDS OUT COMMAND .."
umask 077
folder=$1 words=$2 out=$3
shift 3
: "${SDCA:=sdca}"

# Each start takes WORDS control words of the master, so whatever is sure to fail has to fail before.
[ -e "$folder/site-0.txt" ] || fail 2 "there is no site-0.txt in $folder"
[ "$out" != - ] || out=/dev/stdout
[ -p "$out" ] || [ "$out" = /dev/stdout ] || : >>"$out" || fail 4 "$out can't be written"
own=$(mktemp -d) || fail 4 "no folder can be made in ${TMPDIR:-/tmp}"
mkfifo "$own/clear" || fail 4 "no pipe can be made in $own"

# The source has a session of its own, so that all that it begins can be ended with it.
setsid "$@" >"$own/clear" &
source=$!
end_source() { kill -- "-$source" 2>/dev/null; }
trap end_source TERM INT HUP
# STATUS: the end of this script.
finish() {
    end_source
    wait "$source" 2>/dev/null
    rm -rf "$own"
    exit "$1"
}
exec 3<"$own/clear"
head -c 188 <&3 >"$own/first"
[ -s "$own/first" ] || finish 0

newest() { ls "$folder" | sed -n 's/^site-\(0\|[1-9][0-9]*\)\.txt$/\1/p' | sort -n | tail -n 1; }

# A new site, made under the lock of append.sh. If another head end was faster all the same (exit 19), it goes on from
# that one's site, which is short (exit 6) for a moment.
tries=0
while :; do
    n=$(newest)
    site=$folder/site-$((n + 1)).txt
    code=0
    flock "$folder/book.lock" "$SDCA" next "$folder/site-$n.txt" "$folder/book.txt" "$words" "$site" >&2 || code=$?
    case $code in
        0) break ;;
        19) continue ;;
        6)
            tries=$((tries + 1))
            sleep 1
            [ "$tries" -gt 3 ] || continue
            ;;
    esac
    finish "$code"
done

cat "$own/first" - <&3 | "$SDCA" air "$site" "$folder/book.txt" /dev/stdin "$out" 3<&- &
air=$!
exec 3<&-
# A signal ends `wait` before its time.
code=0
wait "$air" || code=$?
while kill -0 "$air" 2>/dev/null; do
    code=0
    wait "$air" || code=$?
done
trap - TERM INT HUP
# The book grew between `next` and `air` (exit 21). The site isn't used. Once more, with another site.
if [ "$code" = 21 ]; then
    end_source
    wait "$source" 2>/dev/null
    rm -rf "$own"
    exec "$0" "$folder" "$words" "$out" "$@"
fi
finish "$code"

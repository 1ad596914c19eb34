#!/bin/sh
# remove_torn.sh FOLDER [SITE]: says whether the newest site of a chain is torn, as a call of `next` or `twin` leaves it
# that was cut off. If it is SITE, such as site-3.txt, and torn, it is removed. Never name a site whose call ended with
# exit 0, or that was on air. It looks and removes under the lock of append.sh, under which `next` and `twin` should run
# too. Exit 0: the newest site is whole now. SDCA=PROGRAM names the program.

set -eu
umask 077

fail() {
    echo "remove_torn.sh: $1" >&2
    exit 1
}

[ $# = 1 ] || [ $# = 2 ] || fail "its arguments are FOLDER [SITE]"
wanted=${2:-}
cd "$1"
: "${SDCA:=sdca}"
exec 9>book.lock
flock 9

n=$(ls | sed -n 's/^site-\(0\|[1-9][0-9]*\)\.txt$/\1/p' | sort -n | tail -n 1)
site=site-$n.txt
whole() {
    echo "site-$1.txt is whole: go on by next from it"
    exit
}
# What `next` says of a copy, and what it makes of that, is thrown away.
trial=$(mktemp -d ./trial.XXXXXX)
trap 'rm -rf "$trial"' EXIT
said_of() {
    cp "$site" "$trial"
    rm -f "$trial/site-$((n + 1)).txt"
    said=$("$SDCA" next "$trial/$site" book.txt 1 "$trial/site-$((n + 1)).txt" 2>/dev/null) && status=0 || status=$?
    case $status,$said in
        0,* | 7,* | 11,* | 17,* | 21,* | "6,site line 12 is out of range") whole "$n" ;;
        6,*) ;;
        *) fail "can't tell: next ended with exit $status ($said)" ;;
    esac
}
said_of
[ "$n" != 0 ] || fail "site-0.txt was changed, no call made it: put it back from a copy ($said)"
# A site that lacks its last line feed alone says all that it is to say.
if [ "$(wc -l <"$site")" = 12 ] && tail -n 1 "$site" | grep -qx 'book [0-9]* [0-9a-f]\{64\}'; then
    echo >>"$site"
    sync "$site"
    said_of
fi
# Of a torn file only the last line is refused, which lacks its line feed, or lines are missing.
line=$(echo "$said" | sed -n 's/^site line \([0-9]*\) is .*/\1/p')
[ "$said" = "site is short" ] || [ "${line:-0}" -gt "$(wc -l <"$site")" ] ||
    fail "$site is not torn: put it back from a copy, or remove it if no call made it ($said)"
if [ "$wanted" != "$site" ]; then
    echo "remove_torn.sh: $site is torn ($said). If the call that made it ended with exit 0, or it was" >&2
    fail "on air, put it back from a copy. Else this removes it: $0 $1 $site"
fi
rm "$site"
sync .
echo "$site was torn ($said) and is removed: go on by next from the newest site"

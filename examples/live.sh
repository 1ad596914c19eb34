#!/bin/sh
# live.sh [FOLDER]: a live chain on this machine. ffmpeg, which is a Debian package, makes pictures as fast as they are
# seen; `air` sends them; a bad line (relay.py) loses, doubles and damages a part of them; `watch` is a box that bears
# it; and ffmpeg counts the pictures that it can decode. On the way the head end is killed, and a new one goes on. The
# files are made in FOLDER, or in a new one. It takes less than a minute. The program is proved and built first.
# SDCA=PROGRAM names one that is built already. PORT is the port of the line, 5004 if not given.

set -eu

fail() {
    echo "live.sh: $1" >&2
    exit 1
}

command -v ffprobe >/dev/null || fail "ffmpeg isn't here"
here=$(CDPATH='' cd "$(dirname "$0")" && pwd -P)
case ${SDCA:-} in
    '')
        program=$here/../sdca
        "$program" build
        ;;
    */*) program=$(CDPATH='' cd "$(dirname "$SDCA")" && pwd -P)/$(basename "$SDCA") ;;
    *) program=$SDCA ;;
esac
folder=${1:-$(mktemp -d)}
mkdir -p "$folder"
CDPATH='' cd "$folder"
umask 077
[ ! -e site-0.txt ] || fail "$folder has a site already"

say() { printf '\n# %s\n' "$1"; }

# SECONDS: so many seconds of a picture, as fast as they are seen.
picture() {
    ffmpeg -nostdin -v fatal -re -f lavfi -i "testsrc2=size=640x360:rate=25:duration=$1" -c:v mpeg2video -g 12 \
        -b:v 2M -f mpegts -
}

# FILE: how many pictures ffmpeg finds in it.
pictures() {
    ffprobe -v fatal -count_frames -select_streams v -show_entries stream=nb_read_frames -of csv=p=0 "$1" | head -n 1 |
        tr -d ,
}

# FILE: how many packets it has.
packets() { echo $(($(wc -c <"$1") / 188)); }

say "A chain of sites, of which two are to go on air, and a card."
: >book.txt
{
    echo "height 3"
    echo "master $(head -c 32 /dev/urandom | od -An -v -tx1 | tr -d ' \n')"
    tail -n +3 "$here/site.txt" | sed 's/^ecm-every .*/ecm-every 100/; s/^crypto-ecms .*/crypto-ecms 5/'
    printf 'messages 3\nfirst-word 1\nlast-word 0\nfirst-period 0\n'
} >site-0.txt
"$program" card site-0.txt 2 card
"$program" next site-0.txt book.txt 1000 site-1.txt
"$program" next site-1.txt book.txt 1000 site-2.txt

say "25 seconds on air. After ten the head end is killed, and a new one goes on. What the box says:"
{
    picture 30 | tee clear-1.ts | "$program" air site-1.txt book.txt /dev/stdin /dev/stdout &
    head_end=$!
    sleep 10
    kill -KILL "$head_end"
    wait "$head_end" 2>/dev/null || :
    picture 15 | tee clear-2.ts | "$program" air site-2.txt book.txt /dev/stdin /dev/stdout
} | python3 "$here/relay.py" "${PORT:-5004}" | "$program" watch card /dev/stdin seen.ts || echo "exit $?"

say "What it wrote."
echo "$(packets seen.ts) packets of $(packets clear-1.ts) and $(packets clear-2.ts)"
echo "ffmpeg finds $(pictures seen.ts) pictures of $(pictures clear-1.ts) and $(pictures clear-2.ts)"

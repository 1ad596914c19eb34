#!/bin/sh
# `./sdca build` on a machine that keeps nothing, in a fresh clone: its time, which is to be at most 780 s on 4 processors
# at rest, the processor time that it takes, and the ratio of the two. The toolchain's store is hidden by an empty folder
# in a mount namespace of its own, so it wants root. It takes all processors for some minutes.

top=$(CDPATH='' cd "$(dirname "$0")/.." && pwd -P)
work=$(mktemp -d)
trap 'rm -rf "$work"' EXIT
trap 'exit 1' HUP INT TERM
kept=$(dirname "$(rt doc | xargs dirname)")/rattle-kept

git clone -q "$top" "$work/clone" && mkdir "$work/kept" || exit 1
unshare -m sh -c '
    mkdir -p "$1" && mount --bind "$2/kept" "$1" && cd "$2/clone" || exit 1
    start=$(date +%s%N)
    ./sdca build || exit 1
    end=$(date +%s%N)
    times >"$2/times"
    awk -v real=$(((end - start) / 1000000)) -v processors="$(getconf _NPROCESSORS_ONLN)" "
        function seconds(text, parts) { split(text, parts, \"m\"); return parts[1] * 60 + parts[2] }
        END {
            used = seconds(\$1) + seconds(\$2)
            printf \"%d s on %d processors (to reach: 780 on 4), %d s of processor time, ratio %.2f\n\",
                real / 1000, processors, used, real / 1000 / used
        }" "$2/times"
' sh "$kept" "$work"

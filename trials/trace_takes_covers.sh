#!/bin/sh
# Shows that `trace` takes a cover for each leaf that it finds: at height 6, with an empty book and the leaves 0 to
# 63, the 64th request for memory is refused, and the trace ends with exit 12. With ample memory it prints 64 leaves.
# It proves nothing, and catches a trace that comes to its lines without asking a box. It is a part of the gate, and can
# be run by hand, from any folder. `rt try` builds the program, unproved. The last line is `1 passed, 0 failed`.
set -eu
top=$(CDPATH='' cd "$(dirname "$0")/.." && pwd -P)
work=$(mktemp -d)
trap 'rm -rf "$work"' EXIT
trap 'exit 1' HUP INT TERM

fail() {
    echo "$(basename "$0"): $1" >&2
    exit 1
}

sed 's/^height .*/height 6/' "$top/examples/site.txt" >"$work/site"
: >"$work/book"
seq 0 63 >"$work/leaves"

# OPTIONS..: the trace under `rt try`; its lines are in `lines`.
traced() {
    (cd "$top/crates/sdca" && rt try "$@" -- trace "$work/site" "$work/book" "$work/leaves") >"$work/lines" 2>&1
}

no_memory=12
traced || fail "with ample memory the trace fails: $(tail -n 1 "$work/lines")"
[ "$(grep -c '^leaf ' "$work/lines")" = 64 ] || fail "not all leaves are found"
status=0
traced --fail-alloc 64 || status=$?
[ $status = $no_memory ] && grep -q '^no memory$' "$work/lines" || fail "the exit status is $status and not $no_memory"
echo "64 leaves are found, and the 64th request for memory is one of theirs"
echo "1 passed, 0 failed"

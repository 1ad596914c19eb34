#!/bin/sh
# `rt ci`, which is all of the gate but some seconds, in a fresh clone: its processor minutes by kind of work, its wall
# time and its last line. It takes all processors for an hour or more. To be run by hand, from any folder, on a machine
# that does nothing else.

top=$(CDPATH='' cd "$(dirname "$0")/.." && pwd -P)
work=$(mktemp -d)
trap 'rm -rf "$work"' EXIT
trap 'exit 1' HUP INT TERM

git clone -q "$top" "$work/clone" && python3 "$top/bench/gate.py" "$work/clone"

#!/bin/sh
# Shows that `field` makes a receiver each time that one is switched on: over 200 times `off 0` and `on 0` the 400th
# request for memory is refused, and the field ends with exit 12. With ample memory it is done, and with no events it
# makes fewer than 400 requests. It proves nothing, and catches a field that comes to its lines without receivers, or
# that keeps one which is off. It is a part of the gate, and can be run by hand, from any folder:
# `trials/field_makes_receivers.sh`, or `SDCA=PROGRAM trials/field_makes_receivers.sh` with a program that is built
# already. The last line is `1 passed, 0 failed`.
set -eu
. "$(dirname "$0")/../bench/shared.sh"
no_memory=12

cc -O2 -shared -fPIC -o refuse.so "$top/trials/refuse.c"
sed -i 's/^height .*/height 3/' site
: >clear
: >quiet
awk 'BEGIN { for (cut = 0; cut < 200; cut++) print "off 0\non 0" }' >cuts

# SCRIPT: the field, of which the 400th request for memory is refused; there is a file `mark` if it came to that.
refused() {
    rm -f mark
    env FAULT=memory FAULT_AT=400 FAULT_MARK=mark LD_PRELOAD=./refuse.so ./sdca field site clear "$1" >lines
}

./sdca field site clear cuts >lines || fail "with ample memory the field fails: $(cat lines)"
refused quiet || fail "with no events the field fails: $(cat lines)"
[ ! -e mark ] || fail "with no events there are 400 requests for memory"
status=0
refused cuts || status=$?
[ $status = $no_memory ] && [ "$(cat lines)" = "no memory" ] || fail "the exit status is $status and not $no_memory"
echo "200 power cuts are done, and the 400th request for memory is one of theirs"
echo "1 passed, 0 failed"

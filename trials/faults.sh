#!/bin/sh
# Shows that no failing device, want of memory or hostile input makes the program crash, hang, lie or lose a file. Over
# commands with known results it makes each request for memory, and each of the first reads, writes, opens and closes,
# fail in turn (with EIO, ENOSPC and EINTR, and cut short); fills the file system; and feeds it 2,000 changed streams.
# Each run is to end with its own answer and OUT, or with exit 4, 5 or 12 and a prefix of OUT; no other file may change.
# To be run by hand, from any folder: trials/faults.sh [FOLDER], FOLDER having clear streams NAME.ts, in place of one of
# `sample`. SDCA=PROGRAM names a program that is built already. It needs strace, and root for a small file system. The
# last line is `N passed, M failed`.
set -eu

folder=${1:+$(CDPATH='' cd "$1" && pwd -P)}
. "$(dirname "$0")/../bench/shared.sh"
work=$(pwd -P)
first=6
changed=2000
most_seconds=1
device_fault=4
print_fault=5
no_memory=12
not_run=124
least_signal=128
calls="openat statx read write ftruncate close"
strace -V >version || fail "strace is not there"

compile faults
cc -O2 -shared -fPIC -o refuse.so "$top/trials/refuse.c"
passed=0
failed=0

# TEXT: what is wrong with the last run; an empty text says that it is right.
judge() {
    if [ -z "$1" ]; then
        passed=$((passed + 1))
    else
        failed=$((failed + 1))
        echo "$name, $what: $1 (exit $status)"
    fi
}

# The checksums of the files that commands read.
sums() { cksum S S12 B R M A L E C K0 K5 X; }

# FILE WHOLE: whether the one's bytes begin the other's.
begins() { cmp -s -n "$(wc -c <"$1")" "$1" "$2" && [ "$(wc -c <"$1")" -le "$(wc -c <"$2")" ]; }

# What is wrong with the last run beside the whole one.
wrong() {
    [ "$(sums)" = "$inputs" ] || echo "another file changed"
    if [ -e O ] && ! { [ -e O.whole ] && begins O O.whole; }; then echo "OUT is no prefix"; fi
    case $status in
        "$whole")
            cmp -s lines lines.whole || echo "other lines"
            [ ! -e O.whole ] || cmp -s O O.whole || echo "OUT isn't whole"
            ;;
        $device_fault) [ "$(tail -n 1 lines)" = "device fault" ] || echo "other lines" ;;
        $print_fault) begins lines lines.whole || echo "other lines" ;;
        $no_memory) [ "$(tail -n 1 lines)" = "no memory" ] || echo "other lines" ;;
        *) echo "another exit" ;;
    esac
}

# COMMAND..: runs it over a new OUT.
attempt() {
    rm -f O mark
    status=0
    timeout 60 "$@" >lines 2>errors || status=$?
}

# KIND: makes each such call of the command fail in turn, up to the last or to so many.
refuse() {
    kind=$1
    most=$2
    shift 2
    at=0
    while [ $at -lt "$most" ]; do
        at=$((at + 1))
        what="$kind $at"
        attempt env FAULT="$kind" FAULT_AT=$at FAULT_MARK=mark LD_PRELOAD=./refuse.so "$@"
        [ -e mark ] || break
        judge "$(wrong)"
    done
    requests=$((at - 1))
}

# CALL ERROR COMMAND..: makes each of the first such calls on the command's files and what it prints fail in turn.
inject() {
    call=$1
    error=$2
    shift 2
    for at in $(seq $first); do
        what="$call $at $error"
        attempt strace -qq -o trace $paths -e trace="$call" -e inject="$call:error=$error:when=$at" "$@"
        grep -q INJECTED trace || break
        judge "$(wrong)"
    done
}

# WORDS..: all of this over the command.
try_all() {
    name=$*
    attempt ./sdca "$@"
    whole=$status
    cp lines lines.whole
    rm -f O.whole
    [ ! -e O ] || cp O O.whole
    refuse memory 100000 ./sdca "$@"
    counted=$requests
    refuse read $first ./sdca "$@"
    refuse write $first ./sdca "$@"
    for call in $calls; do
        for error in EIO ENOSPC EINTR; do inject "$call" $error ./sdca "$@"; done
    done
    echo "$name: exit $whole, $counted requests for memory"
}

# Names for which a path says the same as a word: all that a command opens, and what it prints.
paths=
for file in S S12 B R M A L E C K0 K5 X O lines; do paths="$paths -P $work/$file"; done

sed 's/^height .*/height 3/; s/^ecm-every .*/ecm-every 200/; s/^crypto-ecms .*/crypto-ecms 2/
    s/^period-cryptos .*/period-cryptos 1/' "$top/examples/site.txt" >S
{ cat S; printf 'messages 2\nfirst-word 7\nlast-word 8\nfirst-period 1\n'; } >S12
printf 'period\nrevoke 5\n' >B
printf 'revoke 5\n' >R
printf 'period\nsubscribe 5\n' >M
printf 'assign ann 5\nperiod\ndrop ann\n' >A
printf '1\n6\n' >L
{
    printf 'send 250\nrevoke 5\nsend 350\noffer 5 607\nlose 3 3\noffer 3 604\n'
    printf 'offer 1 300\noff 1\non 1\noffer 1 307\n'
} >E
./sdca sample 7 600 C
./sdca head S B C X
./sdca card S 0 K0
./sdca card S 5 K5
inputs=$(sums)

try_all cover S R
try_all card S 5 O
try_all head S B C O
try_all head S12 B C O
try_all receive K0 X O
try_all receive K5 X O
try_all book S R M O
try_all accounts S A O
try_all layered S B 2
try_all lcard S 5 2 O
try_all sample 7 600 O
try_all tables X
try_all opens S R L
try_all trace S R L
try_all trial S B C
try_all field S C E

# At height 6 a trial makes 64 cards and 64 receivers, so there is a request for memory of this number, and it is
# wanted.
sed 's/^height .*/height 6/' S >S6
: >B0
./sdca sample 0 1 C1
name="trial S6 B0 C1"
what="memory 128"
attempt env FAULT=memory FAULT_AT=128 FAULT_MARK=mark LD_PRELOAD=./refuse.so ./sdca trial S6 B0 C1
[ -e mark ] && [ $status = $no_memory ] && judge "" || judge "another answer"

# OUT WORDS..: the device is full, and so says the answer; OUT is a prefix where it is a file.
fill() {
    out=$1
    shift
    name=$*
    what="OUT is $out"
    attempt ./sdca "$@" O
    cp O O.whole
    attempt ./sdca "$@" "$out"
    text=
    [ $status = $device_fault ] && [ "$(cat lines)" = "device fault" ] || text="another answer"
    [ ! -f "$out" ] || begins "$out" O.whole || text="OUT is no prefix"
    judge "$text"
}

# WORDS..: standard output is full.
fill_print() {
    name=$*
    what="standard output is full"
    status=0
    ./sdca "$@" >/dev/full || status=$?
    [ $status = $print_fault ] && judge "" || judge "another answer"
}

full() {
    fill "$1" card S 5
    fill "$1" head S B C
    fill "$1" receive K0 X
    fill "$1" book S R M
    fill "$1" accounts S A
    fill "$1" lcard S 5 2
    fill "$1" sample 7 600
}

full /dev/full
for line in "cover S B" "layered S B 2" "accounts S A O" "tables X" "field S C E" "card S 8 O" ""; do fill_print $line; done
if mkdir small && mount -t tmpfs -o size=64k small small 2>errors; then
    trap 'umount "$work/small"; rm -rf "$work"' EXIT
    head -c 65536 /dev/zero >small/rest
    full small/O
    for rest in 61440 20480; do
        rm -f small/O
        head -c $rest /dev/zero >small/rest
        fill small/O head S B C
        fill small/O receive K0 X
        fill small/O sample 7 600
    done
else
    echo "no small file system can be mounted: left out"
fi

# WORDS..: ends by itself within a second of the processor's time, with an exit of the program's own.
bounded() {
    name=$1
    status=0
    rm -f O
    (
        ulimit -t $most_seconds
        exec timeout 60 ./sdca "$@"
    ) >lines 2>errors || status=$?
    text=
    [ $status -lt $not_run ] || text="it was ended"
    [ $status -le 17 ] || text="another exit"
    judge "$text"
}

mkdir streams
if [ -n "$folder" ]; then cp "$folder"/*.ts streams; else cp C streams/sample.ts; fi
for stream in streams/*.ts; do
    ./sdca head S B "$stream" "$stream.sent" >lines || echo "$(basename "$stream"): $(cat lines)"
done
number=0
while [ $number -lt $changed ]; do
    for stream in streams/*.ts streams/*.ts.sent; do
        number=$((number + 1))
        ./faults $number "$stream" mutant
        what="change $number of $stream"
        case $stream in
            *.sent) bounded receive K0 mutant O ;;
            *) bounded head S B mutant O ;;
        esac
        bounded tables mutant
    done
done
what="all"
name="inputs"
[ "$(sums)" = "$inputs" ] && judge "" || judge "they changed"
echo "$passed passed, $failed failed"
[ $failed = 0 ]

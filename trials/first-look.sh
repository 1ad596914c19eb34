#!/bin/sh
# Shows that a command which the launcher runs before its proof does what the built program does: in a fresh clone, each
# case below has the same exit status, standard output, files and standard error, but for the launcher's first line. The
# comments by which the launcher knows the arguments say what `help` prints. A case takes a minute of a processor. To be
# run by hand, from any folder: `trials/first-look.sh`, or `SDCA=PROGRAM trials/first-look.sh` with a program that is
# built already. FIRST and LAST, if set, are the numbers of the first and the last case to run. The last line is
# `N passed, M failed`.
set -eu
. "$(dirname "$0")/../bench/shared.sh"

lanes=$(getconf _NPROCESSORS_ONLN)
first=${FIRST:-1}
last=${LAST:-1000}

"$program" help | sed -n 's/^  \([a-z]*\( [A-Z][A-Z]*\)\{1,\}\)  .*/\1/p' >table
sed -n 's|^    /// `\([a-z]* [A-Z ]*\)`: .*|\1|p' "$top/crates/sd_command_line/src/command.rt" >comments
cmp -s table comments || fail "the comments of Command aren't the table that help prints"

git clone -q "$top" clone
mkdir files files/folder
(
    cd files
    cp "$top"/examples/*.txt .
    cp book.txt 'a book.txt'
    ln -s site.txt link
    head -c 5000 /dev/zero >old
    ../sdca sample 7 600 clear.ts
    ../sdca head site.txt book.txt clear.ts broadcast.ts
    ../sdca card site.txt 2 card-2
    ../sdca card site.txt 5 card-5
)

# Each line is the arguments of a case, as a shell reads them.
cat >cases <<'E'
cover site.txt book.txt
cover site.txt three-periods.txt
cover site.txt no-such-leaf.txt
cover site.txt missing.txt
cover "$PWD/site.txt" 'a book.txt'
cover ./link folder/../book.txt
cover '' book.txt
cover folder book.txt
cover site.txt
cover site.txt book.txt more
status site.txt three-periods.txt 2

no-such-command site.txt
help
help head
help no-such-command
cover --help
cover -h
accounts site.txt accounts.txt made
accounts site.txt book.txt made
accounts site.txt accounts.txt accounts.txt
book site.txt book.txt today.txt made
book site.txt book.txt today.txt book.txt
card site.txt 5 made
card site.txt 5 old
card site.txt 5 no-such-folder/made
card site.txt 5 'folder/a card'
card site.txt 5 "$PWD/made"
card site.txt 5 ./site.txt
card site.txt 5 "$PWD/site.txt"
card site.txt 5 link
card site.txt 5 folder
card site.txt 8 made
card site.txt -- made
lcard site.txt 2 2 made
lcard site.txt 2 9 made
layered site.txt book.txt 2
layered site.txt book.txt x
sample 7 600 made
sample 7 x made
head site.txt book.txt clear.ts made
head site.txt book.txt site.txt made
receive card-2 broadcast.ts made
receive card-5 broadcast.ts made
receive site.txt broadcast.ts made
tables broadcast.ts
tables book.txt
opens site.txt book.txt pooled.txt
apart site-1.txt book.txt site-2.txt book.txt
trace site.txt book.txt pair.txt
trial site.txt book.txt clear.ts
E

# NUMBER KIND PROGRAM: what the case leaves, in the folder NUMBER.KIND: its files, exit status and output.
run_case() {
    mkdir "$1.$2"
    cp -R files "$1.$2/files"
    (
        cd "$1.$2/files"
        eval "set -- '../../$3' $(sed -n "$1p" ../../cases)"
        status=0
        "$@" >../output 2>../told </dev/null || status=$?
        echo "$status" >../status
    )
}

# NUMBER: runs the case by both, and keeps its verdict.
try_case() {
    run_case "$1" built sdca
    run_case "$1" first clone/sdca
    verdict=failed
    head -n 1 "$1.first/told" | grep -q '^sdca: run before its proof; ' &&
        sed 1d "$1.first/told" | cmp -s - "$1.built/told" && verdict=passed
    rm "$1.built/told" "$1.first/told"
    diff -r "$1.built" "$1.first" >"$1.differs" || verdict=failed
    echo "$verdict $1: $(sed -n "$1p" cases)" | tee "$1.verdict"
    [ $verdict = passed ] || cat "$1.differs"
}

running=0
number=0
while read -r _; do
    number=$((number + 1))
    [ $number -ge "$first" ] && [ $number -le "$last" ] || continue
    try_case $number &
    running=$((running + 1))
    [ $((running % lanes)) -ne 0 ] || wait
done <cases
wait

version=$(clone/sdca version 2>told)
[ "$version" = "$(printf 'sdca 1.0.0\nnot proved')" ] || fail "version doesn't say that the run was not proved"
[ ! -e clone/out/sdca ] || fail "the clone has a built program"
cat ./*.verdict | awk '
    { count[$1]++ }
    END { printf "%d passed, %d failed\n", count["passed"], count["failed"]; exit count["failed"] > 0 }'

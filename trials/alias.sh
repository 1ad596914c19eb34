#!/bin/sh
# Shows that OUT never destroys an input: each command with an OUT that is the file of one that it reads, by another
# path, a hard and a symbolic link, ends with a device fault and leaves all files as they were. Another regular file is
# cut off and replaced; a named pipe, /dev/stdout and /dev/null are written as they are. It is a part of the gate, and
# can be run by hand, from any folder: `trials/alias.sh`, or `SDCA=PROGRAM trials/alias.sh` with a program that is built
# already. It takes a second. A row that holds prints nothing. The last line is `N passed, M failed`.
set -u
. "$(dirname "$0")/../bench/shared.sh"

leaf=5
printf 'revoke 5\n' >book
printf 'period\nsubscribe 5\n' >commands
printf 'assign ann 5\nperiod\ndrop ann\n' >people
./sdca card site $leaf card
./sdca sample 7 600 clear
./sdca head site book clear sent
sums() { cksum site book commands people clear sent card; }
before=$(sums)
inode=$(ls -i site)
mkdir folder
ln site hard
ln -s site symbolic
ln -s ../site folder/symbolic

# WORDS..: the command ends with a device fault, and all files are as they were.
refused() {
    status=0
    ./sdca "$@" >lines 2>complaints || status=$?
    [ "$status $(cat lines)" = "4 device fault" ] && [ "$(sums)" = "$before" ] && [ "$(ls -i site)" = "$inode" ]
}

# FILE: it is the card.
made() { cmp -s card "$1"; }

for out in ./site "$work/site" folder/../site hard symbolic folder/symbolic; do
    row "card: OUT is the site by $out" refused card site $leaf "$out"
done

# COMMAND WORDS..: each file that the words name, by each kind of alias, is refused as OUT.
each_refused() {
    command=$1
    shift
    for word in "$@"; do
        [ -f "$word" ] || continue
        rm -f hard symbolic
        ln "$word" hard
        ln -s "$word" symbolic
        for out in "./$word" "$work/$word" "folder/../$word" hard symbolic; do
            row "$command: OUT is $word by $out" refused "$command" "$@" "$out"
        done
    done
}

each_refused card site $leaf
each_refused lcard site $leaf 2
each_refused accounts site people
each_refused book site book commands
each_refused head site book clear
each_refused receive card sent

cp card copy
./sdca card site $leaf copy
row "a file that was there" made copy
cat card card card >long
./sdca card site $leaf long
row "a longer file" made long
ln -s elsewhere dangling
./sdca card site $leaf dangling
row "a symbolic link to no file" made elsewhere
./sdca card site $leaf /dev/stdout | cat >piped
row "standard output that is a pipe" made piped
mkfifo pipe
timeout 120 cat pipe >piece &
./sdca card site $leaf pipe
wait $!
row "a named pipe" made piece
row "it is one still" [ -p pipe ]
./sdca card site $leaf /dev/null
row "/dev/null is a device still" [ -c /dev/null ]
./sdca card /dev/stdin $leaf redirected <site
row "a site from standard input" made redirected
row "a site from standard input as OUT" refused card /dev/stdin $leaf site <site

end_rows

#!/bin/sh
# day.sh [FOLDER]: a small operator's day. Two accounts have cards: ann's is that of receiver 5, bob's of receiver 2.
# In the second period ann is cut off. The files are made in FOLDER, or in a new one.
# The program is proved and built first. SDCA=PROGRAM names one that is built already.

here=$(CDPATH='' cd "$(dirname "$0")" && pwd -P)
case ${SDCA:-} in
    '')
        program=$here/../sdca
        "$program" build || exit 1
        ;;
    */*) program=$(CDPATH='' cd "$(dirname "$SDCA")" && pwd -P)/$(basename "$SDCA") ;;
    *) program=$SDCA ;;
esac
folder=${1:-$(mktemp -d)}
mkdir -p "$folder" && cd "$folder" && cp "$here/site.txt" "$here/accounts.txt" "$here/pooled.txt" "$here/pair.txt" . ||
    exit 1

# WORDS..: runs the program, shows the words, what it prints and any exit but 0.
run() {
    printf '$ sdca %s\n' "$*"
    "$program" "$@" || echo "exit $?"
}

# WORDS..: shows a command and runs it.
show() {
    printf '$ %s\n' "$*"
    "$@" && echo "the same"
}

say() { printf '\n# %s\n' "$1"; }

say "The accounts make the book: ann has receiver 5, bob receiver 2, and in the second period ann is dropped."
run accounts site.txt accounts.txt book.txt

say "So the first period names all receivers, the second all but receiver 5."
run cover site.txt book.txt

say "Each account's card, which never changes."
run card site.txt 5 card-ann
run card site.txt 2 card-bob

say "A clear stream of 600 packets, and its broadcast: 400 packets in the first period, 200 in the second."
run sample 7 600 clear.ts
run head site.txt book.txt clear.ts broadcast.ts

say "Bob's receiver opens all of it."
run receive card-bob broadcast.ts bob.ts
show cmp clear.ts bob.ts

say "Ann's opens the first period, and hears of the second."
run receive card-ann broadcast.ts ann.ts
show cmp -n $((400 * 188)) clear.ts ann.ts

say "A packet of the broadcast is lost: bob's receiver writes the others, and counts it."
{ head -c $((10 * 188)) broadcast.ts && tail -c +$((11 * 188 + 1)) broadcast.ts; } >lossy.ts
run receive card-bob lossy.ts rest.ts

say "What a pirate opens with a copy of ann's card."
run opens site.txt book.txt pooled.txt

say "A pirate's box has the cards of two receivers, which trials find by name."
run trace site.txt book.txt pair.txt

say "All eight receivers at once."
run trial site.txt book.txt clear.ts

printf '\nThe files are in %s\n' "$(pwd -P)"

#!/bin/sh
# Shows that the program makes what programs in C make that were written from docs/FORMATS.md alone, byte for byte: the
# covers of a book (cover.c), cards (cards.c), broadcasts (head.c), and what receivers make of them (receive.c). It is a
# part of the gate, and can be run by hand, from any folder: `trials/twins.sh`, or `SDCA=PROGRAM trials/twins.sh` with a
# program that is built already. It takes some seconds. Without a compiler or OpenSSL's headers rows are left out. The
# last line is `N passed, M failed`.
set -u
. "$(dirname "$0")/../bench/shared.sh"

# NAME FLAGS..: there is the program of trials/NAME.c.
twin() {
    compile "$@" 2>err && return
    left_out "$1.c" "$(head -n 1 err)"
    return 1
}

# PROGRAM WORDS..: what it prints, and its exit status.
answer() {
    "$@" 2>err
    echo "exit $?"
}

# FILE FILE: they have the same bytes.
same() { cmp -s "$1" "$2"; }

# TEXT TWIN WORDS..: both programs make the same OUT, the last word, and give the same answer.
row_alike() {
    text=$1 name=$2
    shift 2
    rm -f out-c out-sdca
    answer "./$name" "$@" out-c >by-c
    answer ./sdca "$@" out-sdca >by-sdca
    row "$text: the answer" same by-c by-sdca
    row "$text: OUT" same out-c out-sdca
}

sed 's/^height .*/height 3/' site >low
printf 'revoke 5\nperiod\nsubscribe 5\nrevoke 2\nrevoke 7\nperiod\n' >few
: >nobody
make_full_book 3 300 40
./sdca sample 1 3000 clear

if twin cover; then
    for book in nobody few book; do
        ./cover cover site $book >by-c 2>err
        ./sdca cover site $book >by-sdca 2>err
        row "cover of $book" same by-c by-sdca
    done
fi
if twin cards -lcrypto; then
    for leaf in 0 5 524288 1048575; do row_alike "card $leaf" cards card site $leaf; done
    for leaf in 0 5 7; do row_alike "card $leaf of a low tree" cards card low $leaf; done
fi
if twin head -lcrypto; then
    for book in nobody few; do row_alike "head of $book in a low tree" head head low $book clear; done
    for book in nobody few book; do row_alike "head of $book" head head site $book clear; done
fi
if twin receive -Wno-deprecated-declarations -lcrypto; then
    for leaf in 0 2 5 7; do
        ./sdca card low $leaf card
        for book in nobody few; do
            ./sdca head low $book clear sent 2>err
            row_alike "receiver $leaf of $book" receive receive card sent
        done
    done
fi
end_rows

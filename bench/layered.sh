#!/bin/sh
# Measures `layered` beside `cover`, and `lcard` beside `card`, in one run of the program at height 20, and shows what
# layers trade: labels a card against sets a period. To be run by hand, from any folder: `bench/layered.sh [PICTURE]`,
# or `SDCA=PROGRAM bench/layered.sh [PICTURE]` with a program that is built already. PICTURE is a file for the table
# as a picture (SVG).
#
# The book has one period and 4,096 of the 1,048,576 leaves revoked, drawn at random. A time is that of a whole run
# with its start, the least of some rounds in which the commands take turns. Of cards, 200 leaves' are made in memory,
# where there is /dev/shm; as many runs that make a card of one label, at height 1, are taken off there, since a card
# takes no longer than the program's start and its files.
#
# It prints for the widths 4, 5 and 20 the nanoseconds for each set that is printed, for `cover` too, and their ratio,
# which is to be at most 2; the microseconds of a card for each of its labels, which is to be no more than a plain
# card's; and for the widths 1 to 20 the labels a card and the sets a period.
set -eu
picture=${1:+$(CDPATH='' cd "$(dirname "$1")" && pwd -P)/$(basename "$1")}
. "$(dirname "$0")/shared.sh"
compile runs
rounds=10
widths="4 5 20"
leaves=$(seq 0 5243 1043357)

make_book 4096

cards=.
if [ -d /dev/shm ]; then
    cards=$(mktemp -d /dev/shm/layers.XXXXXX)
    trap 'rm -rf "$work" "$cards"' EXIT
fi

# The times of the runs in `list`, which are of so many kinds in turn.
time_kinds() {
    rm -f times.*
    for round in $(seq $rounds); do
        ./runs <list >"times.$round" || fail "a run failed"
    done
    least_means "$1" times.*
}

# WIDTH: how many sets `layered` names in it, and how many labels a card has.
sets_of() { ./sdca layered site book "$1" | awk 'NR == 1 { print $6 }'; }
labels_of() {
    ./sdca lcard site 0 "$1" "$cards/card"
    echo $((($(wc -c <"$cards/card") - 61) / 32))
}

for _ in $(seq 20); do
    echo "0 ./sdca cover site book"
    for width in $widths; do echo "0 ./sdca layered site book $width"; done
done >list
means=$(time_kinds 4)
sets=$(./sdca cover site book | awk 'NR == 1 { print $6 }')
for width in $widths; do sets="$sets $(sets_of "$width")"; done
echo "$means $sets" | awk -v widths="$widths" '{
    printf "cover             %6d sets: %7.2f ms, %4.0f ns a set\n", $5, $1 / 1000, $1 * 1000 / $5
    split(widths, width, " ")
    for (k = 2; k <= 4; k++) {
        each = $k * 1000 / $(k + 4)
        printf "layered, width %2d %6d sets: %7.2f ms, %4.0f ns a set, ratio %.2f (to reach: 2)\n",
            width[k - 1], $(k + 4), $k / 1000, each, each / ($1 * 1000 / $5)
    }
}'

sed 's/^height .*/height 1/' site >low
for leaf in $leaves; do
    echo "0 ./sdca card low 0 $cards/card"
    echo "0 ./sdca card site $leaf $cards/card"
    for width in $widths; do echo "0 ./sdca lcard site $leaf $width $cards/layer"; done
done >list
means=$(time_kinds 5)
labels=210
for width in $widths; do labels="$labels $(labels_of "$width")"; done
echo "$means $labels" | awk -v widths="$widths" '{
    plain = ($2 - $1) / ($6 - 1)
    printf "card            %3d labels: %5.0f us, %.2f us a label\n", $6, $2 - $1, plain
    split(widths, width, " ")
    for (k = 3; k <= 5; k++) {
        each = ($k - $1) / ($(k + 4) - 1)
        printf "lcard, width %2d %3d labels: %5.0f us, %.2f us a label, ratio %.2f (to reach: 1)\n",
            width[k - 2], $(k + 4), $k - $1, each, each / plain
    }
}'

echo "width labels sets"
for width in $(seq 20); do echo "$width $(labels_of "$width") $(sets_of "$width")"; done | tee table

# The table as a picture: a dot for each width, labels to the right and sets upwards.
if [ -n "$picture" ]; then
    awk '
        function x(labels) { return 70 + labels * 2.4 }
        function y(sets) { return 390 - sets * 0.034 }
        BEGIN {
            print "<svg xmlns=\"http://www.w3.org/2000/svg\" width=\"640\" height=\"440\" " \
                "font-family=\"sans-serif\" font-size=\"12\">"
            print "<rect width=\"640\" height=\"440\" fill=\"white\"/>"
            for (sets = 0; sets <= 10000; sets += 2000) {
                printf "<path d=\"M70 %.0fH600\" stroke=\"#ddd\"/>", y(sets)
                printf "<text x=\"62\" y=\"%.0f\" text-anchor=\"end\">%d</text>\n", y(sets) + 4, sets
            }
            for (labels = 0; labels <= 210; labels += 30)
                printf "<text x=\"%.0f\" y=\"408\" text-anchor=\"middle\">%d</text>\n", x(labels), labels
            print "<text x=\"335\" y=\"430\" text-anchor=\"middle\">labels a card</text>"
            print "<text x=\"20\" y=\"20\">" \
                "sets a period, 4,096 of 1,048,576 receivers revoked; each dot is a width</text>"
        }
        {
            printf "<circle cx=\"%.1f\" cy=\"%.1f\" r=\"4\" fill=\"#0060a0\"/>", x($2), y($3)
            # Widths of as many labels stand one above the other: named to the right, to the left and above.
            turn = seen[$2]++ % 3
            across = turn == 1 ? -7 : turn == 2 ? 0 : 7
            anchor = turn == 1 ? "end" : turn == 2 ? "middle" : "start"
            printf "<text x=\"%.1f\" y=\"%.1f\" text-anchor=\"%s\">%d</text>\n",
                x($2) + across, y($3) + (turn == 2 ? -8 : 4), anchor, $1
        }
        END { print "</svg>" }' table >"$picture"
fi

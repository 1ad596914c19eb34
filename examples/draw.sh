#!/bin/sh
# draw.sh SITE BOOK PERIOD: draws the tree of receivers with the sets that a period names, as SVG on the standard output.
# It wants `neato` of graphviz, a Debian package, and a tree of height 6 at most. PERIOD is one that `cover` prints.
# FORMAT=png or pdf makes such a file, FORMAT=dot the text for `neato -n2`.
# SDCA=PROGRAM names the program, else it is ../sdca.
#
# A box is a receiver, in the colour of its set, and black if it is revoked. A circle is a node, white if it is in no set.
# A set is named by two nodes: it has what is below the first, with the thick border, but not below the second, with
# the dashed one. The thick line leads from the one to the other.
# The exit is 1 for words, trees and periods that can't be drawn, and else that of `cover` or of `neato`.

here=$(CDPATH='' cd "$(dirname "$0")" && pwd -P)
program=${SDCA:-$here/../sdca}
format=${FORMAT:-svg}
highest=6

# STATUS TEXT: the end.
fail() {
    echo "draw.sh: $2" >&2
    exit "$1"
}

[ $# -eq 3 ] || fail 1 "usage: draw.sh SITE BOOK PERIOD"
case $3 in
    0 | [1-9] | [1-9][0-9] | [1-9][0-9][0-9] | [1-9][0-9][0-9][0-9]) ;;
    *) fail 1 "PERIOD is no number of a period" ;;
esac
case $format in
    svg | png | pdf) command -v neato >/dev/null || fail 1 "neato is not there: apt-get install graphviz" ;;
    dot) ;;
    *) fail 1 "FORMAT is svg, png, pdf or dot" ;;
esac
lines=$("$program" cover "$1" "$2") || fail $? "$lines"
height=$(awk '$1 == "height" { print $2; exit }' <"$1")
[ -n "$height" ] || fail 1 "SITE can't be read again"
[ "$height" -le "$highest" ] || fail 1 "a tree of height $height is too high to be drawn: at most $highest"

graph=$(printf '%s\n' "$lines" | awk -v height="$height" -v wanted="$3" '
    # Colours that colour-blind eyes tell apart: a line, and a tint for what it holds.
    BEGIN {
        colours = split("#0072B2 #C77A00 #00805C #B0508A #2A9FD6 #B84A00 #6A4FB3 #7A7300", line, " ")
        split("#CFE4F3 #FBE3B8 #C2EADB #F4D9E8 #D6EEFB #F8D6C0 #DFD8F2 #F3EFB5", tint, " ")
        black = "#222222"
        grey = "#9A9A9A"
        for (leaves = 1; depth < height; depth++) leaves *= 2
    }
    $1 == "period" { here = $2 == wanted; if (here) { found = 1; revoked = $4; sets = $6 } next }
    here && $1 == "all" { name[++count] = "all"; top[count] = 1; cut[count] = 0 }
    here && NF == 2 { name[++count] = $1 " " $2; top[count] = $1; cut[count] = $2 }

    function is_below(v, i) { while (v > i) v = int(v / 2); return v == i }
    # where a node is drawn, in points: leaves side by side, and each other node over the middle of those below it
    function place(v, first, last, deep) {
        deep = height
        first = last = v
        while (first < leaves) { first *= 2; last = 2 * last + 1; deep-- }
        return 18 * (first + last - 2 * leaves) "," 54 * (height - deep)
    }
    function number(v, thing) { return v " " thing (v == 1 ? "" : "s") }

    END {
        if (!found) exit 3
        # The set that each node is in: below its i and not below its j. Sets are disjoint, so it is in one at most.
        for (v = 1; v < 2 * leaves; v++)
            for (k = 1; k <= count; k++)
                if (is_below(v, top[k]) && !(cut[k] && is_below(v, cut[k]))) of[v] = k
        for (k = 1; k <= count; k++) {
            colour[k] = line[(k - 1) % colours + 1]
            fill[k] = tint[(k - 1) % colours + 1]
            begins[top[k]] = k
            if (cut[k]) ends[cut[k]] = k
        }
        print "digraph cover {"
        print "  graph [fontname=\"DejaVu Sans\", fontsize=12, labelloc=b, margin=0.1];"
        print "  node [fontname=\"DejaVu Sans\", fontsize=10, style=filled, fixedsize=true];"
        print "  edge [arrowhead=none];"
        for (v = 1; v < 2 * leaves; v++) {
            leaf = v >= leaves
            gone = leaf && !of[v]
            shown = leaf ? v - leaves : v
            shape = leaf ? "box" : "circle"
            edge = of[v] ? colour[of[v]] : (leaf ? black : grey)
            inside = of[v] ? fill[of[v]] : (gone ? black : "white")
            text = gone ? "white" : "black"
            width = 1
            style = "filled"
            # where a set begins, and what is cut out of it
            if (v in begins) { width = 3; edge = colour[begins[v]] }
            if (v in ends) { width = 2.2; edge = colour[ends[v]]; style = "filled,dashed" }
            printf "  %d [pos=\"%s\", label=\"%d\", shape=%s, width=0.38, height=0.38, style=\"%s\", fillcolor=\"%s\", ",
                v, place(v), shown, shape, style, inside
            printf "color=\"%s\", fontcolor=\"%s\", penwidth=%s];\n", edge, text, width
        }
        for (v = 2; v < 2 * leaves; v++) {
            up = int(v / 2)
            k = of[up]
            on_way = k && cut[k] && is_below(cut[k], v)
            printf "  %d -> %d [color=\"%s\", penwidth=%s, style=%s];\n", up, v, k ? colour[k] : grey,
                on_way ? 2.6 : 1, on_way && v == cut[k] ? "dashed" : "solid"
        }
        # what is named, and how many receivers each set has
        printf "  label=<<table border=\"0\" cellborder=\"0\" cellspacing=\"4\">"
        printf "<tr><td colspan=\"8\">period %d: %s revoked, %s</td></tr>", wanted, number(revoked, "receiver"),
            number(sets, "set")
        for (k = 1; k <= count; k++) {
            members = 0
            for (v = leaves; v < 2 * leaves; v++) members += of[v] == k
            if (k % 4 == 1) printf "<tr>"
            printf "<td bgcolor=\"%s\" border=\"2\" color=\"%s\">%s</td><td align=\"left\">%s</td>", fill[k], colour[k],
                name[k], number(members, "receiver")
            if (k % 4 == 0 || k == count) printf "</tr>"
        }
        print "</table>>;"
        print "}"
    }
')
status=$?
[ "$status" -ne 3 ] || fail 1 "the book has no period $3"
[ "$status" -eq 0 ] || fail "$status" "the sets can't be read"
if [ "$format" = dot ]; then
    printf '%s\n' "$graph"
else
    printf '%s\n' "$graph" | neato -n2 -T"$format"
fi

# What the scripts of this folder and of trials/ share; they read it. It goes to a folder that is removed at the end,
# with `site` of height 20 and `sdca`: the program itself, so that the launcher's look at the sources isn't timed.
# SDCA=PROGRAM names one that is built already, and OLD=PROGRAM an older one, which a script that says so measures
# beside it.
top=$(CDPATH='' cd "$(dirname "$0")/.." && pwd -P)
work=$(mktemp -d)
trap 'rm -rf "$work"' EXIT
trap 'exit 1' HUP INT TERM

fail() {
    echo "$(basename "$0"): $1" >&2
    exit 1
}

# The rows of a script that shows how the program behaves. A row that holds prints nothing.
passed=0
failed=0

# TEXT TEST..: the row of this text holds if the test does.
row() {
    text=$1
    shift
    if "$@"; then
        passed=$((passed + 1))
    else
        failed=$((failed + 1))
        echo "FAILED: $text"
    fi
}

# TEXT WHY: the row of this text can't be tried here. It isn't counted.
left_out() { echo "left out: $1: $2"; }

# Ends a script of rows.
end_rows() {
    echo "$passed passed, $failed failed"
    [ "$failed" = 0 ]
    exit
}

# FILE: its name by which it is found from everywhere.
absolute() { echo "$(CDPATH='' cd "$(dirname "$1")" && pwd -P)/$(basename "$1")"; }

if [ -n "${SDCA:-}" ]; then
    program=$(absolute "$SDCA")
    [ -x "$program" ] || fail "$SDCA is no program"
else
    "$top/sdca" build || fail "the program can't be built"
    program=$top/out/sdca
fi

old=${OLD:+$(absolute "$OLD")}
cd "$work" || exit
ln -s "$program" sdca
programs=./sdca
if [ -n "$old" ]; then
    ln -s "$old" old
    programs="./sdca ./old"
fi
sed 's/^height .*/height 20/' "$top/examples/site.txt" >site

# NAME LIBRARIES..: the program of trials/NAME.c or bench/NAME.c.
compile() {
    name=$1
    shift
    for folder in trials bench; do
        [ ! -e "$top/$folder/$name.c" ] || cc -O2 -o "$name" "$top/$folder/$name.c" "$@"
    done
}

# COUNT: `book` revokes so many of the 1,048,576 leaves, drawn at random, in ascending order.
make_book() {
    awk -v most="$1" 'BEGIN {
        srand(7)
        for (count = 0; count < most; count++) {
            do leaf = int(rand() * 1048576); while (leaf in revoked)
            revoked[leaf]
            print leaf
        }
    }' | sort -n | sed 's/^/revoke /' >book
}

# PERIODS REVOKED PAIRS: `book` has periods with so many leaves revoked at the end of each, drawn at random, and each
# period but the first changes so many of them for others.
make_full_book() {
    awk -v periods="$1" -v most="$2" -v pairs="$3" '
        function revoke(place, leaf) {
            do leaf = int(rand() * 1048576); while (leaf in revoked)
            revoked[leaf]
            leaf_at[place] = leaf
            print "revoke " leaf
        }
        function subscribe(place) {
            print "subscribe " leaf_at[place]
            delete revoked[leaf_at[place]]
        }
        BEGIN {
            srand(7)
            for (place = 0; place < most; place++) revoke(place)
            for (period = 1; period < periods; period++) {
                print "period"
                for (pair = 0; pair < pairs; pair++) {
                    place = int(rand() * most)
                    subscribe(place)
                    revoke(place)
                }
            }
        }' >book
}

# COMMAND: the microseconds that it takes from its start to its end.
timed() {
    start=$(date +%s%N)
    "$@"
    echo $((($(date +%s%N) - start) / 1000))
}

# LIST: the median of the times in it, one for each of the rounds.
median() { sort -n "$1" | sed -n $(((rounds + 1) / 2))p; }

# The program of the lower crates' work, as `bench`: proved and built where that is due, and not timed.
build_bench() {
    (cd "$top/crates/sd_bench" && rt run -- scramble 1000) >build 2>&1 || { cat build >&2; exit 1; }
    bench=$top/crates/sd_bench/out/sd_bench
}

# KINDS LISTS..: each list has the microseconds of the same runs, of so many kinds in turn. The mean of each kind's
# runs, a run's time being its least of all lists.
least_means() {
    kinds=$1
    shift
    awk -v kinds="$kinds" '
        !(FNR in least) || $1 < least[FNR] { least[FNR] = $1 }
        END {
            for (run in least) { sum[run % kinds] += least[run]; runs[run % kinds]++ }
            for (kind = 1; kind <= kinds; kind++) printf "%.1f ", sum[kind % kinds] / runs[kind % kinds]
        }' "$@"
}

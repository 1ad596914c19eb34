#!/bin/sh
# Shows that ten edits of one line at the machine's edge, each of which changes what a user sees, don't pass the gate.
# Of each it says `refused by the prover: CRATE`, `refused by SCRIPT: ROW`, or `NOT SEEN`. To be run by hand, from any
# folder: `trials/edge_edits.sh [NUMBER..]`, the numbers being those of the edits to try, all if none is given. It builds
# the program first, if no build is up to date. Then it takes some minutes for each edit: it applies the edit to a clone
# of the last commit, where tools/build.py proves only the crates that changed and those above, and builds the program.
# The last line is `N passed, M failed`.
. "$(dirname "$0")/../bench/shared.sh"
most_seconds=1800
clone=$work/clone
kept=crates/sdca/out/rlib
git clone -q "$top" "$clone" || fail "the repository can't be cloned"

# Runs edge.sh and alias.sh of the clone with this program. The rows that fail, each with its script, are in `rows`.
try_rows() {
    for script in edge alias; do
        SDCA=$1 timeout $most_seconds "$clone/trials/$script.sh" >said 2>&1
        sed -n "s/^FAILED/$script.sh/p" said
        tail -n 1 said | grep -q '^[0-9]* passed, [0-9]* failed$' || echo "$script.sh: it doesn't end"
    done >rows
}

# FILE OLD NEW: changes the text OLD, which the clone's file has once.
edit() {
    python3 - "$clone/$1" "$2" "$3" <<'PYTHON'
import sys
path, old, new = sys.argv[1:]
with open(path, encoding="utf-8") as file:
    text = file.read()
if text.count(old) != 1:
    sys.exit(1)
with open(path, "w", encoding="utf-8") as file:
    file.write(text.replace(old, new))
PYTHON
}

# Builds the clone's program and says what is seen of the edit.
seen_by() {
    rm -rf "$clone/crates/sdca/out" "$clone/out"
    mkdir "$clone/crates/sdca/out"
    cp -r "$top/$kept" "$clone/$kept"
    if ! python3 "$clone/tools/build.py" >log 2>&1; then
        crate=$(sed -n 's/^\([a-z0-9_]*\): failed (.*/\1/p' log | head -n 1)
        if grep -q '^logic=not-proved' log; then
            echo "refused by the prover: $crate"
        else
            echo "$crate doesn't compile: NOT SEEN"
        fi
        return
    fi
    try_rows "$clone/out/sdca"
    new=$(grep -vxF -f before rows | head -n 1)
    if [ -n "$new" ]; then echo "refused by $new"; else echo "NOT SEEN"; fi
}

# NUMBER TEXT FILE OLD NEW: the edit, if it is one of those to try.
try() {
    number=$1
    case " ${wanted:-$number} " in
        *" $number "*) ;;
        *) return ;;
    esac
    git -C "$clone" checkout -q .
    if edit "$3" "$4" "$5"; then seen=$(seen_by); else seen="$3 has other lines: NOT SEEN"; fi
    case $seen in
        *"NOT SEEN") failed=$((failed + 1)) ;;
        *) passed=$((passed + 1)) ;;
    esac
    echo "$number, $2: $seen"
}

wanted=$*
try_rows "$program"
mv rows before
host=crates/sd_host/src/identity.rt
start=crates/sd_run/src/program.rt
edge=crates/sd_run/src/edge.rt
try 1 "OUT is compared with two inputs alone" $host 'spare_inputs(inputs, kind' \
    'spare_inputs(&inputs[..inputs.len().min(2)], kind'
try 2 "an old OUT of 1 MB isn't cut off" $host 'if kind == Kind::Regular {' \
    'if kind == Kind::Regular && metadata.size() < 1_000_000 {'
try 3 "a pipe is never the standard output" $host 'Kind::Regular | Kind::Stream => Output::Known(file),' \
    'Kind::Regular => Output::Known(file), Kind::Stream => Output::Other,'
try 4 "a name above 1,000 bytes is missing" $host 'let file = fs::open(files, name)?;' \
    'if name.len() > 1_000 { return Err(Error::from(ErrorKind::NotFound)); } let file = fs::open(files, name)?;'
try 5 "losses end with exit 0" $start 'exit_of(answer(rt, output, error))' \
    'exit_of(match answer(rt, output, error) { Status::Gaps(_) => Status::Done, status => status })'
try 6 "an argument too many is dropped" $start 'args.skip(1).collect' 'args.skip(1).take(5).collect'
try 7 "a card has the mode of other files" $edge 'line.holds_secrets())' 'line.holds_secrets() && line.files().is_empty())'
try 8 "a line goes into a stream" $start 'names_output(&depot, &line);' \
    'names_output(&depot, &line) && words.len() > 4;'
try 9 "nothing is explained" $start 'text.as_bytes()).ok();' '&text.as_bytes()[..0]).ok();'
try 10 "no argument is the standard output" $edge 'depot.is_output(name)' 'false && depot.is_output(name)'

end_rows

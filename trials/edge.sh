#!/bin/sh
# Shows how the program behaves at the machine's edge: OUT as the standard output, the modes of cards and sites, names
# that lead to one file, kinds of files and of faults, exits of streams, what a refusal is to a user, chains of sites,
# and pipes that stay open. It is a part of the gate, and can be run by hand, from any folder: `trials/edge.sh`, or
# `SDCA=PROGRAM trials/edge.sh` with a program that is built already. It takes some 4 seconds, and needs Python 3, but no
# root. A row that holds prints nothing. A row that can't be tried here, as without strace, says so and isn't counted.
# The last line is `N passed, M failed`.
[ $# -eq 0 ] || { echo "edge.sh takes no argument: SDCA=PROGRAM trials/edge.sh" >&2; exit 2; }
. "$(dirname "$0")/../bench/shared.sh"
live=$top/trials/live.py
umask 022

# WORDS..: runs the program; its exit is in $status.
sdca() {
    status=0
    "$program" "$@" || status=$?
}
is() { [ "$1" = "$2" ]; }
same() { cmp -s "$1" "$2"; }
mode() { stat -c %a "$1"; }
# FILE..: their lines without those for a reader, which begin with `sdca: `.
lines_of() { cat "$@" | grep -v '^sdca: '; }

# COUNT FILE: the bytes of its first COUNT packets.
first_packets() { head -c $((188 * $1)) "$2"; }

# FIRST COUNT FILE: the bytes of its packets without COUNT of them from number FIRST on.
without() { first_packets "$1" "$3" && tail -c "+$((188 * ($1 + $2) + 1))" "$3"; }

printf '%s\n' 'height 3' 'master 000102030405060708090a0b0c0d0e0f101112131415161718191a1b1c1d1e1f' 'ca 1234' 'emm 496' \
    'ecm 497' 'ecm-every 200' 'crypto-ecms 2' 'period-cryptos 1' >S
printf 'period\nrevoke 5\n' >B
printf 'assign ann 5\nperiod\ndrop ann\n' >A
: >N
sdca sample 7 600 C
sdca head S B C X 2>err
sdca head S N C XN 2>err
sdca card S 0 K0
sdca card S 5 K5
sdca accounts S A BA >report
head -c 56300 C >torn
sums() { cksum S B A N C X K0 K5; }
before=$(sums)

# --- OUT is the standard output: a pipe
"$program" head S B /dev/stdin /dev/stdout <C 2>warned | "$program" receive K0 /dev/stdin /dev/stdout >got 2>err
row "head into receive into a file, by /dev/stdout" same got C
row "nothing is said" is "$(cat err)" ""
"$program" head S B torn /dev/stdout 2>err | cat >got
sdca head S B torn X9 >lines 2>warned
row "a refusal's line doesn't go into a pipe that is OUT" same got X9
row "it goes to the standard error" is "$(lines_of err)" "clear packet 299: torn"
"$program" receive K5 X /dev/fd/1 2>err | cat >got
head -c 75200 C >due
row "a receiver that is revoked, /dev/fd/1" same got due
row "its line" is "$(lines_of err)" "receiver 5 is revoked in period 1"
"$program" accounts S A /dev/stdout 2>err | cat >got
row "accounts: the book alone goes into the pipe" same got BA
row "accounts: the report goes to the standard error" same err report
"$program" cover S B 2>err | cat >got
sdca cover S B >due
row "no OUT: lines go to the standard output" same got due

mkfifo both-pipe
timeout 120 cat both-pipe >got &
sdca accounts S A both-pipe >both-pipe 2>err
wait $!
row "OUT by a named pipe's name, which is the standard output too: the book alone" same got BA
row "its report goes to the standard error" same err report
python3 "$live" socket "$program" accounts S A /dev/stdout >got 2>err
row "accounts into a socket: the book alone" same got BA
row "accounts into a socket: the report goes to the standard error" same err report

python3 "$live" full "$program" head S N C /dev/stdout 2>err
row "a full pipe in which no write waits: a device fault" is "$? $(lines_of err)" "4 device fault"

# --- OUT is the standard output: a regular file
sdca card S 5 /dev/stdout >got 2>err
row "a card into a new file" same got K5
sdca accounts S A /dev/stdout >got 2>err
row "accounts into a file: the report doesn't lie over the book" same got BA
row "accounts into a file: the report" same err report
sdca accounts S A both >both 2>err
row "OUT by its own name, which is the standard output too" same both BA
sdca receive K5 X /dev/stdout >got 2>err
head -c 75200 C >due
row "receive into a file: the line doesn't lie over packet 0" same got due
row "receive into a file: exit" is "$status" 3
echo keep >got
sdca card S 5 /dev/stdout >>got 2>err
{ echo keep && cat K5; } >due
row ">>: what stood there is kept" same got due
(
    echo first
    sdca card S 5 /dev/stdout 2>err
    echo last
) >got
{ echo first && cat K5 && echo last; } >due
row "between two others that write to the same file" same got due
sdca head S B torn /dev/stdout >got 2>err
row "a refusal in the stream, into a file" same got X9
row "its line" is "$(lines_of err)" "clear packet 299: torn"

# --- what head warns of
site_lines="a site's lines have one order, and none before the last is left out"
twice="it has no line first-word; sent twice, it repeats its control words; make sites by next"
older="its messages are of version 1; a box that stays on loses the next broadcast; take messages 3"
{ cat S && printf '%s\n' 'messages 1' 'first-word 0'; } >S10
{ cat S && printf '%s\n' 'messages 3' 'first-word 0' 'last-word 4294967295' 'first-period 0'; } >S12
sdca head S B C X8 2>err
row "head: a site of eight lines" is "$status $(cat err)" "0 sdca: warning: SITE S: $twice"
sdca head S10 B C X8 2>err
row "head: messages of version 1" is "$status $(cat err)" "0 sdca: warning: SITE S10: $older"
sdca head S12 B C X8 2>err
row "head: a site of twelve lines" is "$status $(cat err)" "0 "
{ "$program" head S B C /dev/stdout 2>&1 || :; } >got
row "the warning comes before OUT's first byte" is "$(head -n 1 got)" "sdca: warning: SITE S: $twice"
row "and OUT is whole behind it" is "$(tail -n +2 got | cksum)" "$(cksum <X)"
sdca trial S B C >got 2>err
row "trial doesn't warn" is "$(cat err)" ""

# --- an input is the standard output's file
cp X grow
sdca tables grow >>grow 2>err
row "tables X >>X: refused" is "$status" 4
row "tables X >>X: nothing is added" same grow X
cp S site
sdca card site 8 K8 >>site 2>err
row "a command whose site is the standard output: refused" is "$status" 4
row "its site is as it was" same site S
row "the line is on the standard error" is "$(lines_of err)" "device fault"

# --- a word that names no file may be the name of the standard output's file
sdca card S 9 K9 >9 2>err
row "card S 9 OUT >9: the line is in 9" is "$(cat 9)" "word 2 is out of range"
sdca help cover >cover 2>err
if [ "$status" = 0 ]; then row "help cover >cover: the page is in cover" test -s cover; fi
sdca cover S >S9 2>err
row "too few words: usage is printed" is "$(cat S9)" usage
sdca head a b c d e f >words 2>err
row "too many words: usage is printed" is "$(cat words)" usage
row "too many words: exit" is "$status" 1

# --- how many arguments there are; the last two commands of the list have pages without arguments
"$program" help | sed -n 's/^  \([a-z]* [A-Z ]*[A-Z]\)  .*/\1/p' >table
while read -r command operands; do
    for words in "${operands% *}" "$operands more"; do
        [ "$words" != "$operands" ] || words=
        # shellcheck disable=SC2086 # the arguments of a command
        sdca "$command" $words >lines 2>err
        row "$command $words: usage" is "$status $(cat lines err)" \
            "1 usage
sdca: $command: wrong number of arguments; see sdca help $command"
    done
done <table
of_source=$(sed -n 's/^pub const COMMANDS: \[Command; \([0-9]*\)\].*/\1/p' "$top/crates/sd_command_line/src/command.rt")
row "help lists $of_source commands with arguments" is "$(wc -l <table)" "$of_source"
for words in "help cover more" "version more"; do
    # shellcheck disable=SC2086 # the words of a command
    sdca $words >lines 2>err
    row "$words: usage" is "$status $(cat lines err)" \
        "1 usage
sdca: ${words%% *}: wrong number of arguments; see sdca help"
done
sdca card S 5 "$(printf 'K\377')" >lines 2>err
row "a word that isn't UTF-8: usage, and nothing is explained" is "$status $(cat lines err)" "1 usage"

# --- devices
sdca head S /dev/null C /dev/null >lines 2>err
row "/dev/null as BOOK, and /dev/null as OUT by the same word: usage" is "$status" 1
sdca head S /dev/null C /dev/stdout >/dev/null 2>err
row "an empty book by /dev/null, and OUT by /dev/stdout that is /dev/null" is "$status" 0
sdca cover S /dev/null >/dev/null 2>err
row "cover with lines to /dev/null: none on the standard error" is "$status $(cat err)" "0 "
sdca receive K5 X /dev/null >lines 2>err
row "OUT is /dev/null: lines go to the standard output" is "$status $(cat lines)" "3 receiver 5 is revoked in period 1"
row "/dev/null is a device still" test -c /dev/null
sdca card S 5 /dev/full >lines 2>err
row "/dev/full: a device fault" is "$status $(cat lines)" "4 device fault"
sdca cover S B >/dev/full 2>err
row "lines to /dev/full: exit 5" is "$status" 5
mkfifo pipe
timeout 120 cat pipe >got &
sdca card S 5 pipe
wait $!
row "a named pipe" same got K5
row "it is one still" test -p pipe

# --- modes
umask 022
rm -f K O
sdca card S 5 K
row "a card is the owner's alone" is "$(mode K)" 600
sdca lcard S 5 2 L
row "so is a layer card" is "$(mode L)" 600
sdca head S B C O 2>err
row "a broadcast is as the umask says" is "$(mode O)" 644
sdca receive K0 X R
row "so are clear packets" is "$(mode R)" 644
sdca accounts S A BB >lines
row "so is a book" is "$(mode BB)" 644
: >K && chmod 640 K
sdca card S 5 K
row "a file that was there keeps its mode" is "$(mode K)" 640
rm -f O K L
sdca card S 5 K
(umask 077 && exec "$program" head S B C O 2>err)
row "umask 077" is "$(mode O)" 600
(umask 0 && "$program" card S 5 K9 && exec "$program" lcard S 5 2 L9)
row "umask 0: cards are the owner's alone still" is "$(mode K9) $(mode L9)" "600 600"

# --- aliases
mkdir folder
ln S hard
ln -s S symbolic
ln -s ../S folder/symbolic
for out in ./S "$work/S" folder/../S hard symbolic folder/symbolic /dev/stdin; do
    sdca card S 5 "$out" >lines 2>err <S
    row "OUT is the site by $out" is "$status $(cat lines)" "4 device fault"
done
for out in ./B ./C; do
    sdca head S B C "$out" >lines 2>err
    row "head: OUT is another input by $out" is "$status $(cat lines)" "4 device fault"
done
sdca book S B N ./N >lines 2>err
row "book: OUT is its third input" is "$status $(cat lines)" "4 device fault"
row "all inputs are as they were" is "$(sums)" "$before"
cat K0 K0 K0 >long
sdca card S 5 long
row "a longer file is cut off" same long K5
head -c 2000000 /dev/zero >long
sdca card S 5 long
row "a file of 2 MB is cut off" same long K5
ln -s elsewhere dangling
sdca card S 5 dangling
row "a symbolic link to no file" same elsewhere K5
sdca card /dev/stdin 5 K <S
row "a site from the standard input" same K K5
{ sdca receive K0 /dev/stdin got <X; } 2>err
row "a stream from a file that is the standard input" same got C
cat X | "$program" receive K0 /dev/stdin got
row "a stream from a pipe" same got C

cp S 'blank '
sdca card 'blank ' 5 K
row "a name with a blank at its end" same K K5
path=$(printf './%.0s' $(seq 1000))
sdca card "${path}S" 5 "${path}K6"
row "names of more than 2,000 bytes" same K6 K5

# --- exits of streams
# A broadcast has a CAT, the EMM of period 0 and an ECM before clear packet 0, a packet each, and an ECM before clear
# packet 200. That of the empty book, XN, has the three again before clear packet 400, and an ECM behind the last.
without 1 1 X >unheard
sdca receive K0 unheard got >lines 2>err
tail -c 37600 C >due
row "without the EMM of period 0" is "$status $(cat lines)" "13 receiver 0 did not hear its entitlement for period 0"
row "its clear packets" same got due
first_packets 400 XN >broken
sdca receive K0 broken got >lines 2>err
first_packets 200 C >due
row "a stream that ends early" is "$status $(cat lines)" "14 stream ends before message 2"
row "its clear packets" same got due
without 103 1 XN >gap
sdca receive K0 gap got >lines 2>err
without 100 1 C >due
row "a packet is missing" is "$status $(cat lines)" "15 1 clear packets are missing"
row "its clear packets" same got due
sdca receive K0 C got >lines 2>err
row "a stream without a CAT" is "$status $(cat lines)" "16 no CAT for this card"
row "nothing of it is written" is "$(wc -c <got)" 0

# --- kinds of faults
ln -s loop loop
name=$(printf 'x%.0s' 1 2 3 4 5 6 7 8 9 0 1 2 3 4 5 6 7 8 9 0 1 2 3 4 5 6)
name=$name$name$name$name$name$name$name$name$name$name
for pair in "S/x missing file word 1" "no/x missing file word 1" "no missing file word 1" "loop device fault" \
    "$name device fault" "folder device fault"; do
    sdca cover "${pair%% *}" B >lines 2>err
    row "cover ${pair%% *}" is "$(cat lines)" "${pair#* }"
done
for pair in "S/x missing file word 3" "no/x missing file word 3" "loop device fault" "$name device fault" \
    "folder device fault"; do
    sdca card S 5 "${pair%% *}" >lines 2>err
    row "card to ${pair%% *}" is "$(cat lines)" "${pair#* }"
done
# Root may read and write all, so root tries these as nobody, who may not look into the folder of the program.
as_user=
if [ "$(id -u)" = 0 ]; then
    as_user="setpriv --reuid=65534 --regid=65534 --clear-groups"
    mkdir copied && cp "$program" copied/sdca && chmod 711 "$work" && chmod 755 copied/sdca
fi
cp S shut && chmod 000 shut
for words in "cover shut B" "card S 5 shut"; do
    # shellcheck disable=SC2086 # the words of a command
    if [ -z "$as_user" ]; then
        sdca $words >lines 2>err
    elif $as_user copied/sdca version >lines 2>err; then
        $as_user copied/sdca $words >lines 2>err
    else
        left_out "$words: shut may not be opened" "nothing can be run as nobody"
        continue
    fi
    row "$words: shut may not be opened" is "$(cat lines)" "device fault"
    row "$words: what the machine says" test -n "$(grep 'shut: permission denied$' err)"
done
for pair in "cover loop B:SITE loop: its path is a loop of links, or too long" \
    "cover folder B:SITE folder: it is a folder" \
    "cover S folder:BOOK folder: it is a folder" "card S 5 folder:OUT folder: it is a folder" \
    "card S 5 ./S:OUT ./S: it is an input and the output, by two names" \
    "card S 5 /dev/full:OUT /dev/full: no space is left on the device; what is there is a part of it"; do
    # shellcheck disable=SC2086 # the words of a command
    sdca ${pair%%:*} >lines 2>err
    row "${pair%%:*}: what the machine says" is "$status $(cat lines err)" "4 device fault
sdca: ${pair#*:}"
done
sdca cover S B >&- 2>err
row "a closed standard output: exit 5" is "$status" 5
sdca card S 5 K >&- 2>err
row "a closed standard output: OUT is whole" same K K5

# --- what a refusal is to a user
for pair in "cover S no:sdca: BOOK no: no such file" "card S 5 no/x:sdca: OUT no/x: no such folder" \
    "card S 9 K:sdca: LEAF 9: out of its range; LEAF is the receiver's number, from 0 to 2^height - 1" \
    "card S x K:sdca: LEAF x: not a decimal number; LEAF is the receiver's number, from 0 to 2^height - 1" \
    "cover B B:sdca: SITE B: line 1 is \"period\"; it must be height N, N from 1 to 20; $site_lines" \
    "receive S X K:sdca: CARD S: it is no card of the command card; a card of lcard (a layer card) can't receive" \
    "cover S:sdca: cover: wrong number of arguments; see sdca help cover" \
    "card S 5 S:sdca: OUT S: it is one of the inputs" "frob:sdca: frob: unknown command; see sdca help" \
    "help frob:sdca: frob: unknown command; see sdca help"; do
    # shellcheck disable=SC2086 # the words of a command
    sdca ${pair%%:*} >lines 2>err
    row "${pair%%:*}: explained" is "$(cat err)" "${pair#*:}"
done

# --- the examples of help; one whose files are missing (exit 2) is tried again after the others
mkdir shown
ln -s "$top/examples" shown/examples
{ cat S && printf 'messages 3\nfirst-word 1\nlast-word 0\nfirst-period 0\n'; } >shown/site-0.txt
commands=$("$program" help | sed -n 's/^  \([a-z]*\) [A-Z].*/\1/p')
for turn in 1 2 3; do
    missing=
    for command in $commands; do
        example=$("$program" help "$command" | sed -n 's/^  sdca //p')
        # shellcheck disable=SC2086 # the arguments of a command
        (cd shown && "$program" $example) >lines 2>err
        ended=$?
        if [ $ended = 2 ] && [ $turn != 3 ]; then
            missing="$missing $command"
        else
            row "the example of help $command is done" is "$ended $(lines_of err | grep -v '^{"left"')" "0 "
        fi
    done
    commands=$missing
done

# --- limits of the machine
(
    ulimit -f 8
    trap '' XFSZ
    exec "$program" sample 7 600 big
) >lines 2>err
row "a limit on file sizes, its signal ignored: exit 4" is "$?" 4
row "what the machine says" is "$(cat err)" "sdca: OUT big: it would be larger than is allowed (ulimit -f)"
head -c "$(wc -c <big)" C >due
row "OUT is a prefix" same big due
(
    trap '' PIPE
    "$program" head S N C /dev/stdout 2>err
    echo "$?" >closed
) | true
row "the reader of OUT is gone, its signal ignored: exit 4" is "$(cat closed) $(lines_of err)" "4 device fault"
row "what the machine says" is "$(tail -n 1 err)" "sdca: OUT /dev/stdout: its reader is gone"

# --- `-` is the standard input or the standard output. An older program fails these rows
"$program" head S B - - <C 2>warned | "$program" receive K0 - - >got 2>err
row "head into receive into a file, by -" same got C
row "nothing is said" is "$(cat err)" ""
sdca card - 5 K <S
row "a site by -" same K K5
sdca accounts S A - >got 2>err
row "accounts to -: the book alone" same got BA
row "accounts to -: the report goes to the standard error" same err report
cp S ./-
rm -f K
sdca card ./- 5 K <N
row "./- is a file that is read" same K K5
sdca card S 5 ./- >lines
row "and a file that is made" same ./- K5
rm ./-
sdca card S - K >lines 2>err
row "no number is -" is "$status $(cat lines)" "17 word 2 is out of range"
sdca next shown/site-0.txt N 1000 - >lines 2>err
row "no new site is -" is "$status $(cat lines)" "19 file word 4 does not follow file word 1"

# --- help of a command, and the state of a receiver. An older program fails these rows
for command in receive show; do
    sdca help "$command" >due
    for word in --help -h; do
        sdca "$command" "$word" >got
        row "$command $word is help $command" same got due
    done
done
sdca status S B 5 >lines
row "status of a receiver that is revoked in period 1" is "$status $(sed 1d lines)" "0 period 0 receiver 5 entitled
period 1 receiver 5 revoked"
row "its first line is the fingerprint that show prints for a card of the site" is "$(head -n 1 lines)" \
    "master $("$program" show K0 | sed -n 's/.*"master":"\([0-9a-f]*\)".*/\1/p')"
sed 's/^master 00/master 01/' S | "$program" status - B 5 >got
row "another master has another one" test "$(head -n 1 got)" != "$(head -n 1 lines)"

# --- chains of sites. An older program fails these rows
mkdir chain
: >chain/book
cp shown/site-0.txt chain
# SITE OUT: the arguments that make OUT, the site after SITE, with 1,000 control words.
after() { echo "next chain/$1 chain/book 1000 chain/$2"; }
# WORDS: runs the program with these words; its exit, lines and explanation are in $answer.
ask() {
    # shellcheck disable=SC2086 # the words of a command
    sdca $1 >lines 2>err
    answer="$status $(cat lines err)"
}
there="19 file word 4 is there"
(umask 0 && exec "$program" next chain/site-0.txt chain/book 1000 chain/site-1.txt) >lines 2>err
row "next makes the site after the first one" is "$? $(cat lines err)" "0 period 1 packet 0 revoked 0"
row "umask 0: it is the owner's alone" is "$(mode chain/site-1.txt)" 600
{ cat S && printf 'messages 3\nfirst-word 1\nlast-word 1000\nfirst-period 1\nbook 0 %s\n' \
    "$(sha256sum <chain/book | cut -c 1-64)"; } >due
row "its lines" same chain/site-1.txt due
ask "$(after site-0.txt site-1.txt)"
row "a site is made once" is "$answer" "$there
sdca: OUT chain/site-1.txt: it is there already; each site is made once"
row "it is as it was" same chain/site-1.txt due
ask "$(after site-0.txt site-2.txt)"
row "a name is passed over" is "$answer" "19 file word 4 does not follow file word 1
sdca: OUT chain/site-2.txt: its name is not that of SITE with the last number one higher"
for pair in "chain/site-1.txt /dev/stdout" "/dev/stdin chain/site-2.txt"; do
    ask "next ${pair% *} chain/book 1000 ${pair#* }"
    row "next ${pair% *} .. ${pair#* }: no name that follows" is \
        "$status $(cat lines err | grep -c 'does not follow')" "19 1"
done
ask "twin chain/site-1.txt 1000 chain/site-2.txt"
row "twin prints nothing" is "$answer" "0 "
sed 's/^first-word 1$/first-word 1001/; s/^last-word 1000$/last-word 2000/' due >twin
row "a twin's lines" same chain/site-2.txt twin
row "a twin is the owner's alone" is "$(mode chain/site-2.txt)" 600
echo 'revoke 5' >chain/book
ask "$(after site-2.txt site-3.txt)"
row "what is appended holds from the first packet on" is "$answer" "0 period 2 packet 0 revoked 1
revoke 5"
# The sites that are made from here on are site-4.txt, which is removed after each.
fourth=chain/site-4.txt
ln -s elsewhere-else "$fourth"
ask "$(after site-3.txt site-4.txt)"
row "a link to no file is there" is "$(head -n 1 lines)" "${there#19 }"
row "it isn't followed" test ! -e chain/elsewhere-else
rm "$fourth" && mkdir "$fourth"
ask "$(after site-3.txt site-4.txt)"
row "a folder is there" is "$(head -n 1 lines)" "${there#19 }"
rmdir "$fourth"
for _ in $(seq 40); do
    ("$program" next chain/site-3.txt chain/book 1000 "$fourth" >/dev/null 2>&1; echo $? >>exits) &
done
wait
row "of forty at once one makes the site" is "$(sort -n exits | uniq -c | awk '{ print $1, $2 }' | paste -sd ,)" \
    "1 0,39 19"
row "it is whole" is "$(wc -l <"$fourth")" 13
for book in /dev/null N S; do
    ask "next $fourth $book 1000 chain/site-5.txt"
    row "next with $book: not the book of the site" is "$answer" "21 book is not that of the site
sdca: BOOK $book: it doesn't begin with the book of the site's line 13; an old book was put back, or a line was \
changed or lost"
done
rm -f O
ask "head chain/site-3.txt N C O"
row "head with another book" is "$answer" "21 book is not that of the site
sdca: BOOK N: it is not the book of the site's line 13; if it only got longer, make the next site"
row "nothing is made" test ! -e O
ask "head chain/site-3.txt chain/book C O"
row "head with its site's book" is "$answer" "0 "
sdca card chain/site-0.txt 5 K && sdca receive K O got >lines 2>err
row "who was revoked before next opens nothing" is "$(cat lines) $(wc -c <got)" "receiver 5 is revoked in period 2 0"
ask "head chain/site-0.txt chain/book C O"
row "the first site has no control word" is "$(cat lines)" "clear packet 0: too long"
rm "$fourth"
(ulimit -f 0 && trap '' XFSZ && exec "$program" next chain/site-3.txt chain/book 1000 "$fourth") >/dev/null 2>&1
row "no byte of a site can be written: exit 4" is "$?" 4
ask "next $fourth chain/book 1000 chain/site-5.txt"
row "no site is made from what is left of it" is "$status $(head -n 1 lines)" "6 site is short"
rm "$fourth"
sdca next chain/site-3.txt chain/book 1000 "$fourth" >/dev/full 2>err
row "nothing can be printed: exit 5" is "$status" 5
row "the site is whole" is "$(wc -l <"$fourth")" 13
rm "$fourth"
sdca next chain/site-3.txt chain/book 1000 "$fourth" >&- 2>err
row "a closed standard output: lines on the standard error" is "$status $(head -c 7 err) $(wc -l <"$fourth")" "0 period  13"
rm "$fourth"
if strace -o trace true 2>err; then
    # WORDS..: runs them under strace, which sees what is brought to the disk.
    traced() { strace -f -y -o trace -e trace=fsync,fdatasync "$@"; }
    synced() { sed -n 's/.*sync([0-9]*<\(.*\)>) *= 0$/\1/p' trace | paste -sd ' '; }
    # shellcheck disable=SC2046 # the words of a command
    traced "$program" $(after site-3.txt site-4.txt) >lines 2>err
    row "a site and its folder are on the disk" is "$(synced)" "$(pwd -P)/$fourth $(pwd -P)/chain"
    for turn in 1 2; do
        rm "$fourth"
        # shellcheck disable=SC2046 # the words of a command
        traced -e inject=fsync:error=EIO:when=$turn "$program" $(after site-3.txt site-4.txt) >lines 2>err
        row "sync $turn fails: exit 4" is "$? $(cat lines)" "4 device fault"
    done
    cp chain/site-3.txt site-3.txt
    traced "$program" next site-3.txt chain/book 1000 site-4.txt >lines 2>err
    row "a name without a folder: the current one is on the disk" is "$(synced)" "$(pwd -P)/site-4.txt $(pwd -P)"
    traced "$program" card S 5 K >lines 2>err
    row "no other file waits for the disk" is "$(synced)" ""
else
    left_out "what is brought to the disk" "strace: $(cat err)"
fi

# --- a pipe that stays open: OUT has all that the packets known so far decide. An older program fails these rows
row "head of 200 and 201 packets: 203 and 205 of the broadcast" is \
    "$(python3 "$live" fed C O 200 201 -- "$program" head S N /dev/stdin O 2>err)" "$((188 * 203)) $((188 * 205))"
row "head to the end" same O XN
row "receive: nothing before ECM 1, then each stretch at the ECM behind it" is \
    "$(python3 "$live" fed XN R 203 204 407 608 -- "$program" receive K0 /dev/stdin R)" \
    "0 $((188 * 200)) $((188 * 400)) $((188 * 600))"
row "receive to the end" same R C

# --- streams that may be damaged: `watch`. Of two runs the first breaks off within a packet
# WORDS FIRST PERIOD: the lines of a site with such control words and first period.
run_site() { cat S && printf 'messages 3\nfirst-word %s\nlast-word %s\nfirst-period %s\n' "$1" "$2" "$3"; }
# ENDING PACKETS RUN SKIPPED WRITTEN: the line of `watch`, of no other damage.
told() { echo "{\"doubled\":0,$1\"marked\":0,\"odd\":0,\"packets\":$2,\"refused\":0,$3\"skipped\":$4,\"written\":$5}"; }
sdca watch K0 XN got >lines 2>err
row "watch of a whole broadcast" is "$status $(cat lines err)" "0 $(told '' 608 '' 0 600)"
row "its clear packets" same got C
run_site 0 1 0 >first_site
run_site 2 3 1 >second_site
sdca sample 8 600 C8
sdca head first_site N C first_run
sdca head second_site N C8 second_run
{ head -c $((188 * 300 + 77)) first_run && cat second_run; } >seam
sdca watch K0 seam got >lines 2>err
{ first_packets 200 C && cat C8; } >due
unclosed="stream ends before message 2"
turned=$(told "\"ending\":\"$unclosed\"," 301 '"run":0,' 77 200)
row "a torn seam of two runs: a line for each" is "$status $(cat lines)" \
    "14 $turned
$(told '' 908 '"run":2,' 77 800)
$unclosed"
row "their clear packets" same got due
sdca receive K0 seam got >lines 2>err
row "receive ends there" is "$status $(cat lines)" "10 stream packet 301: no sync"
sdca watch K0 seam /dev/stdout >got 2>err
row "OUT is the standard output: no line is among the packets" same got due
row "the lines are on the standard error" is "$(lines_of err | wc -l) $(head -n 1 err)" "3 $turned"
sdca watch K0 seam got >/dev/full 2>err
row "a line can't be printed: exit 5" is "$status" 5
row "OUT has what was written before it" is "$(wc -c <got)" $((188 * 200))
sdca watch K0 seam /dev/full >lines 2>err
row "OUT can't be written: exit 4, and no last line" is "$status $(cat lines)" "4 $turned
device fault"
{ first_packets 99 XN && printf 'x' && cat C; } >wild
sdca watch K0 wild got >lines 2>err
row "a byte more behind packet 98, which is lost then" is "$(head -n 1 lines)" \
    "$(told '"ending":"stream ends before message 1",' 698 '' 189 0)"
row "watch: nothing before ECM 1 and a byte behind it, then each stretch so" is \
    "$(python3 "$live" fed XN R 204 205 408 608 -- "$program" watch K0 /dev/stdin R)" \
    "$(told '' 608 '' 0 600)
0 $((188 * 200)) $((188 * 400)) $((188 * 400))"
row "watch to the end" same R C
mkfifo air
"$program" watch K0 air got >lines 2>err &
box=$!
exec 7>air
{ cat first_run && first_packets 3 second_run; } >&7
turn=0
until [ -s lines ] || [ $turn = 100 ]; do
    sleep 0.05
    turn=$((turn + 1))
done
row "a line is printed where a run ends, while the pipe is open" is "$(cat lines)" "$(told '' 609 '"run":0,' 0 600)"
row "and OUT has the whole run" is "$(wc -c <got)" $((188 * 600))
exec 7>&-
wait "$box"
row "the box is switched off" is "$? $(tail -n 1 lines)" "14 stream ends before message 1"

# --- a head end that goes on: `air`. Site 1 of a chain of its own is for a broadcast of clear packets in version 3
: >onair_book
mkdir onair && printf '%s\n' 'messages 3' 'first-word 1' 'last-word 0' 'first-period 0' | cat S - >onair/site-0.txt
for n in 0 1; do sdca next onair/site-$n.txt onair_book 1000 onair/site-$((n + 1)).txt >lines; done
site=onair/site-1.txt
mark=$site.used
# PACKETS SENT REFUSED SKIPPED PERIOD WORD FIRST: the line of `air`, with 1,000 control words.
aired() {
    printf '{%s"left":%s,"marked":0,"packets":%s,"pats":0,"period":%s,"refused":%s,"sent":%s,"skipped":%s,"word":%s}' \
        "$7" $((1000 - $6)) "$1" "$5" "$3" "$2" "$4" "$6"
}
sdca head $site onair_book C due
sdca air $site onair_book C A1 >lines 2>err
row "air of a clear stream" is "$status $(cat lines)" "0 $(aired 600 600 0 0 1 2 '')"
row "it is what head makes of it" same A1 due
row "on the standard error a line where each period begins" is "$(cat err)" "$(aired 1 1 0 0 1 1 '')"
row "the mark is there and empty" is "$(wc -c <$mark)" 0
cp A1 A2
for out in A2 A3; do
    ask "air $site onair_book C $out"
    row "a site that was used, into $out" is "$answer" "20 site is used
sdca: SITE $site: it was used; make the next one (sdca next)"
done
row "OUT stays" same A2 A1
row "no other OUT is made" test ! -e A3
rm $mark && ln -s nowhere $mark
ask "air $site onair_book C A3"
row "a link has the mark's name" is "$status" 20
rm $mark && mkdir $mark
ask "air $site onair_book C A3"
row "a folder has the mark's name" is "$status" 20
rmdir $mark
ask "air $site onair_book C $mark"
row "OUT is the mark" is "$answer" "1 usage
sdca: OUT $mark: it is the mark of SITE"
ln -s site-1.txt.used onair/other
ask "air $site onair_book C onair/other"
row "OUT is the mark by a link" is "$status $(head -n 1 lines) $(wc -c <$mark)" "4 device fault 0"
rm $mark onair/other
ask "air $site onair_book nowhere A3"
row "no CLEAR: no mark" is "$status $(ls onair)" "2 $(printf 'site-%s.txt\n' 0 1 2)"
ask "air $site onair_book C nowhere/A3"
row "no folder for OUT: the site is wasted" is "$status $(head -n 1 lines) $(ls $mark)" "2 missing file word 4 $mark"
rm $mark
for given in S chain/site-3.txt onair/site-0.txt; do
    ask "air $given onair_book C A3"
    echo "$status $(head -n 1 lines)"
done >got
row "sites that aren't for air" is "$(cat got)" "6 site is short
21 book is not that of the site
6 site is short"
sed '9s/3/2/' $site >onair/version-2.txt
sed '11s/.*/last-word 0/' $site >onair/no-word.txt
for given in onair/version-2.txt onair/no-word.txt; do
    ask "air $given onair_book C A3"
    echo "$status $(head -n 1 lines)"
done >got
row "of version 2, or without a control word" is "$(cat got)" "6 site line 9 is out of range
6 site line 11 is out of range"
row "nothing was made" is "$(ls onair | grep -c used) $(ls A3 2>/dev/null)" "0 "
sed '11s/.*/last-word 1/' $site >onair/one-word.txt
first_packets 400 C >C400 && sdca head onair/one-word.txt onair_book C400 due
sdca air onair/one-word.txt onair_book C got >lines 2>err
row "the control words are used up: a report and exit 22" is "$status $(tail -n 1 lines)" "22 site is used up at packet 400"
row "with the closing message" same got due
{ first_packets 10 C && without 0 10 X | head -c 188 && head -c 77 C && printf '\107\100\001\020' && head -c 184 /dev/zero &&
    without 0 10 C; } >wild_clear
sdca head $site onair_book C due
sdca air $site onair_book wild_clear got >lines 2>err
row "a packet of a broadcast, a torn one and a CAT are left out" is "$status $(cat lines)" \
    "0 $(aired 602 600 2 77 1 2 '"first":"clear packet 10: already scrambled",')"
row "and all else is sent" same got due
rm $mark
"$program" air $site onair_book /dev/stdin /dev/stdout <C 2>err | cat >got
row "air into a pipe: all lines on the standard error" is "$(cat err)" "$(aired 1 1 0 0 1 1 '')
$(aired 600 600 0 0 1 2 '')"
row "and nothing else in the pipe" same got due
rm $mark
sdca air $site onair_book C got >/dev/full 2>err
row "air: nothing can be printed: exit 5" is "$status" 5
row "OUT is whole" same got due
rm $mark
rm -f exits
for _ in $(seq 40); do
    ("$program" air $site onair_book C "$(mktemp O.XXXXXX)" >/dev/null 2>&1; echo $? >>exits) &
done
wait
row "of forty at once one sends" is "$(sort -n exits | uniq -c | awk '{ print $1, $2 }' | paste -sd ,)" "1 0,39 20"
row "and one OUT has a byte" is "$(find . -name 'O.*' -size +0 | wc -l)" 1
rm $mark
row "air: before a read all but the last packet is sent, which is known by the byte behind it" is \
    "$(python3 "$live" fed C R 200 201 -- "$program" air $site onair_book /dev/stdin R 2>err | tail -n 1)" \
    "$((188 * 202)) $((188 * 203))"
row "air to the end" same R due
rm $mark
if strace -o trace true 2>err; then
    strace -f -y -o trace -e trace=openat,fsync "$program" air $site onair_book C R >lines 2>err
    row "the mark is new and on the disk with its folder, and then OUT is opened" is \
        "$(grep -E 'O_EXCL|fsync|"R"' trace | grep -v ENOENT | sed 's/.*\(O_EXCL\|fsync\|"R"\).*/\1/' | uniq | paste -sd ' ')" \
        'O_EXCL fsync "R"'
    rm $mark
    # WORDS..: the most bytes that one of its writes has.
    most_written() {
        strace -f -o trace -e trace=write "$@" 2>err | cat >got
        sed -n 's/.*write(.*) *= \([0-9]*\)$/\1/p' trace | sort -n | tail -n 1
    }
    row "a pipe gets 21 packets at once" is "$(most_written "$program" head S N C /dev/stdout)" $((188 * 21))
    row "and a file all of a read" is "$(most_written "$program" head S N C R)" $((188 * 356))
else
    left_out "when the mark is on the disk" "strace: $(cat err)"
fi

# --- a standard output that can't be looked at, since nothing is in /dev. An older program fails these rows
# WORDS..: runs them in a namespace of their own, in which nothing is in /dev.
blind() { unshare -rm sh -c 'mount -t tmpfs none /dev && exec "$@"' sh "$@"; }
if blind true 2>err; then
    blind "$program" accounts S A unseen >unseen 2>err
    row "accounts: OUT is the standard output and can't be known: the report doesn't lie over it" same unseen BA
    row "accounts: the report goes to the standard error" same err report
    blind "$program" receive K5 X R >lines 2>err
    row "receive: its line goes to the standard error" is "$(lines_of lines err)" "receiver 5 is revoked in period 1"
    row "receive: nothing is on the standard output" is "$(cat lines)" ""
    sdca cover S B >due
    blind "$program" cover S B >got 2>err
    row "no OUT: lines go to the standard output" same got due
    # shellcheck disable=SC2016 # they are expanded there
    unshare -rm sh -c 'mount -t tmpfs -o ro none folder && exec "$@"' sh "$program" card S 5 folder/K >lines 2>err
    row "a file system that is read-only" is "$(cat lines err)" "device fault
sdca: OUT folder/K: its file system is read-only"
else
    left_out "a standard output that can't be looked at" "unshare -rm: $(cat err)"
fi

# --- control characters of an argument are escaped. An older program fails these rows
sdca card S "$(printf '9\033[31m\177\302\233\303\251')" K9 >lines 2>err
letter=$(printf '\303\251')
row "an argument with ESC, DEL, U+009B and a letter of two bytes" is "$(cut -d: -f 1,2 err)" \
    'sdca: LEAF 9\x1b[31m\x7f\xc2\x9b'"$letter"
sdca "$(printf 'a\nb')" >lines 2>err
row "an unknown command with a line feed" is "$(cat err)" 'sdca: a\x0ab: unknown command; see sdca help'

end_rows

#!/usr/bin/env bash
# Runs the real programs on real files, in a fresh folder: checks/program.sh ODE ODE_MULTI
# Each check prints `ok NAME` or `FAILED NAME`. The last line is `N passed, M failed`; the status is 1 where M isn't 0.
set -u

if [ $# -ne 2 ] || [ ! -x "$1" ] || [ ! -x "$2" ]; then
    echo 'usage: checks/program.sh ODE ODE_MULTI' >&2
    exit 2
fi

here=$(cd "$(dirname "${BASH_SOURCE[0]}")/.." && pwd)
examples=$here/examples
folder=$(mktemp -d)
trap 'rm -rf "$folder"' EXIT
chmod 755 "$folder"
cp "$1" "$folder/ode"
cp "$2" "$folder/ode_multi"
chmod 755 "$folder/ode" "$folder/ode_multi"
cd "$folder" || exit 2

passed=0
failed=0
skipped=0
large= # a folder in memory, where there is one
status=0
as=() # the words that run a command as somebody else

# ok NAME, failed NAME: count one check.
ok() {
    passed=$((passed + 1))
    echo "ok $1"
}

failed() {
    failed=$((failed + 1))
    echo "FAILED $1"
}

skip() {
    skipped=$((skipped + 1))
    echo "skipped $1"
}

# is NAME COMMAND..: the command succeeds.
is() {
    local name=$1
    shift
    if "$@"; then ok "$name"; else failed "$name"; fi
}

# run WORD..: the program with these words. It leaves `status`, and what was printed in the file `text`.
run() {
    "${as[@]}" timeout -k 5 60 ./ode "$@" > text 2> errors
    status=$?
}

# sessions WORD..: the same for the program of sessions.
sessions() {
    timeout -k 5 60 ./ode_multi "$@" > text 2> errors
    status=$?
}

# killed MOST INPUT COMMAND..: the command, killed within so many thousandths of a second. What it printed is a front of the file `whole`,
# and `shown` says how many transactions that has.
killed() {
    local most=$1 input=$2 pid
    shift 2
    : > front
    "$@" < "$input" > front 2> errors &
    pid=$!
    sleep "0.$(printf '%03d' $((RANDOM % most)))"
    kill -KILL "$pid" 2> kill.errors
    wait "$pid" 2> kill.errors
    if ! cmp -s -n "$(stat -c %s front)" front whole; then
        echo '  what was printed is no front'
        return 1
    fi
    shown=$(sed -n '/^tx [0-9]* committed$/p' front | wc -l)
}

# settled_since TRANSACTION SCRIPT FILE: the next run, whose first `tx` tells how many transactions settled from that one on: `settled` is at
# least what was shown, and at most one more.
settled_since() {
    run run "$3" <<< "$2"
    settled=$(($(sed -n 's/^tx \([0-9]*\) committed$/\1/p' text | head -n 1) - $1))
    if [ "$status" -ne 0 ] || [ "$settled" -lt "$shown" ] || [ "$settled" -gt $((shown + 1)) ]; then
        echo "  $shown transactions were printed, and $settled are there; status $status"
        return 1
    fi
}

# complain STATUS: what the last run did in place of ending with this status.
complain() {
    echo "  status $status, expected $1"
    if [ -s errors ]; then
        echo "  on standard error: $(head -c 1000 errors)"
    fi
}

# ended NAME STATUS: the last run ended with this status, with nothing on standard error.
ended() {
    if [ "$status" -eq "$2" ] && [ ! -s errors ]; then
        ok "$1"
    else
        failed "$1"
        complain "$2"
    fi
}

# printed NAME STATUS FILE: it ended so, and printed these bytes.
printed() {
    if [ "$status" -eq "$2" ] && cmp -s text "$3" && [ ! -s errors ]; then
        ok "$1"
    else
        failed "$1"
        complain "$2"
        diff -u --label expected --label printed "$3" text | head -n 20
    fi
}

# said NAME STATUS TEXT: the same, with the text as a word.
said() {
    printf '%s' "$3" > said
    printed "$1" "$2" said
}

# fresh FILE: a new database.
fresh() {
    run init "$1" < /dev/null
    if [ "$status" -ne 0 ]; then failed "a new file: $1 (status $status)"; fi
}

# zeros COUNT
zeros() {
    head -c "$1" /dev/zero
}

# number FILE AT COUNT: the number in so many bytes, 1, 2, 4 or 8, at a place.
number() {
    od -An -v --endian=big "-tu$3" "-j$2" "-N$3" "$1" | tr -d ' '
}

# last_frame FILE: where the gate of the last frame stands in a journal that begins at 4,096.
last_frame() {
    local at=4096 next
    while true; do
        next=$((at + 5 + $(number "$1" $((at + 1)) 4)))
        if [ "$(number "$1" "$next" 1)" -ne 165 ]; then break; fi
        at=$next
    done
    echo "$at"
}

printf 'class P { int n; };\n' > declare.ode
usage=$'usage: ode (init|run|check|dump|query|same|ship|follow) FILE | ode gen FILE N\n'

# --- a new file

run init new.db < /dev/null
said 'init prints ready' 0 $'ready\n'

# the first slot: its gate, the name, format 2, layout 2, generation 1; no page at 33,558,528 yet, the journal begins at 4,096
# and its region ends at 16,781,312
{
    printf '\xA5ODEBASE1'
    printf '\0\0\0\2\0\0\0\2\0\0\0\0\0\0\0\1'
    printf '\0\0\0\0\2\0\x10\0\0\0\0\0\0\0\0\0'
    printf '\0\0\0\0\0\0\x10\0\0\0\0\0\1\0\x10\0'
} > slot
# the counters' record: its key, the length 45, three numbers that are 1, a clock that isn't set
{
    printf '\1'
    zeros 16
    printf '\0\x2D\0\0\0\0\0\0\0\1\0\0\0\0\0\0\0\1\0\0\0\0\0\0\0\1'
    zeros 21
} > counters
# the journal: an open gate, the length 76, one image, of page 0, of 66 bytes, which has one record; and a gate that is shut
{
    printf '\xA5\0\0\0\x4C'
    printf '\0\0\0\1\0\0\0\0\0\x42\0\1'
    cat counters
    zeros 1
} > journal
{
    cat slot
    zeros $((4096 - 57))
    cat journal
} > expected.db
is 'a new file has 4,178 bytes' [ "$(stat -c %s new.db)" -eq 4178 ]
is 'a new file has its header, its page in a frame and a shut gate' cmp new.db expected.db

run run new.db < /dev/null
said 'an empty script prints nothing' 0 ''
is 'an empty script leaves the file as it was' cmp new.db expected.db

run check new.db < /dev/null
said 'a check counts the records' 0 $'good classes 0 objects 0 activations 0 entries 0\n'
run dump new.db < /dev/null
said 'a dump prints the records' 0 $'counters next 1 tx 1 entry 1\nclock none\n'
is 'a check and a dump leave the file as it was' cmp new.db expected.db
for mode in query same; do
    run "$mode" new.db < /dev/null
    said "an empty script of mode $mode prints nothing" 0 ''
    is "and leaves the file as it was" cmp new.db expected.db
done

run init new.db < /dev/null
said 'a second init is refused' 3 $'file exists\n'
is 'a second init leaves the file as it was' cmp new.db expected.db

head -c 5000 /dev/zero | tr '\0' x > short.db
run init short.db < /dev/null
said 'init takes a file of other bytes' 0 $'ready\n'
{
    cat slot
    zeros $((2048 - 57)) | tr '\0' x
    zeros 1
    zeros 2047 | tr '\0' x
    cat journal
    zeros $((5000 - 4178)) | tr '\0' x
} > expected_short.db
is 'init leaves the other bytes as they were' cmp short.db expected_short.db

zeros 8193 > long.db
run init long.db < /dev/null
said 'init refuses a file of 8,193 bytes' 3 $'file exists\n'
is 'the long file is as it was' cmp long.db <(zeros 8193)

# --- a clock that is set

{
    printf '%s\n' 'class A { event time every 10; trigger initial perpetual t(): time every 10 ==> { say "t"; } };'
    printf '%s\n' 'pnew A();' 'clock "1970-01-01T00:00:02Z";'
} > set.ode
printf '%s\n' 'clock "1970-01-01T00:00:01Z";' 'clock "1970-01-01T00:00:10Z";' > later.ode
# the clock is set, and stands at second 2, behind every object and place
printf '\1\0\0\0\0\0\0\0\2\xFF\xFF\xFF\xFF\xFF\xFF\xFF\xFF\xFF\xFF\xFF\xFF' > position
fresh set.db
run run set.db < set.ode
said 'a script sets the clock' 0 $'class A\ntx 1 committed\nnew #1\nactive 2\ntx 2 committed\ntx 3 committed\n'
# The last frame has page 0 first, whose first record is that of the counters, and its numbers are in front of the clock.
is 'its position is in the last frame' cmp position <(tail -c +$(($(last_frame set.db) + 61)) set.db | head -c 21)
cp set.db set.before
run run set.db < /dev/null
said 'a file whose clock is set is opened' 0 ''
is 'it is left as it was' cmp set.db set.before
run run set.db < later.ode
said 'the clock goes on, and never back' 1 $'refused 1 clock back\nfired t on #1\nsaid t\ntx 4 committed\ntx 5 committed\n'

# --- the examples

# example NAME FILE: the script on this file prints NAME.out; the status is 1 where a statement of it was refused.
example() {
    local wanted=0
    if grep -q '^refused ' "$examples/$1.out"; then wanted=1; fi
    run run "$2" < "$examples/$1.ode"
    printed "example $1" "$wanted" "$examples/$1.out"
}

# asked NAME MODE: the questions on the example's file print NAME.MODE.out, and leave the file as it is.
asked() {
    cp "$1.db" "$1.before"
    run "$2" "$1.db" < "$examples/$1.$2"
    printed "example $1, mode $2" 0 "$examples/$1.$2.out"
    is "and the file is as it was" cmp "$1.db" "$1.before"
}

for script in "$examples"/*.ode; do
    name=$(basename "$script" .ode)
    if [ "$name" = again ]; then continue; fi
    fresh "$name.db"
    example "$name" "$name.db"
    if [ "$name" = first ]; then example again first.db; fi
done
asked stock query
asked alarms same

# --- sessions

# The example's sessions go on over what its script left.
cp stock.db clerks.db
sessions clerks.db < "$examples/stock.multi"
printed 'example stock, a run of sessions' 1 "$examples/stock.multi.out"

for words in '' '-f' 'f f' 'run f' 'f -f'; do
    # shellcheck disable=SC2086 # the words are cut at blanks
    sessions $words < /dev/null
    said "wrong words: ode_multi $words" 2 $'usage: ode_multi FILE\n'
done
sessions '' < /dev/null
said "wrong words: ode_multi ''" 2 $'usage: ode_multi FILE\n'
is 'wrong words of sessions make no file' [ ! -e f ]
sessions missing.db < /dev/null
said 'sessions on a missing file' 3 $'no database\n'
is 'they make no file' [ ! -e missing.db ]
sessions "$folder" < /dev/null
said 'sessions on a directory' 4 ''
sessions clerks.db < "$folder"
said 'a script of sessions that is a directory' 5 ''

cp new.db two.db
sessions two.db < /dev/null
said 'an empty script of sessions prints nothing' 0 ''
is 'and leaves the file as it was' cmp two.db new.db

# Two sessions over one file of two objects, and what a run finds behind them.
printf '%s\n' 'class P { int n; void a() { n = n + 1; } };' 'pnew P();' 'pnew P();' > two.ode
run run two.db < two.ode
cp two.db drawn.db
printf '%s\n' '1: begin;' '2: begin;' '1: #1.a();' '2: #2.a();' '2: #1.a();' '2: commit;' '1: commit;' '2: #1.a();' '1: show #1.n;' > two.multi
sessions two.db < two.multi
said 'an object that another session holds' 1 \
    $'busy 5 session 1 on #1\ntx 4 committed\ntx 5 committed\ntx 6 committed\nvalue 2\ntx 7 committed\n'
run run two.db <<< 'show #1.n; show #2.n;'
said 'a run behind sessions' 0 $'value 2\ntx 8 committed\nvalue 1\ntx 9 committed\n'
printf '%s\n' '1: begin;' '1: pnew P();' '2: pnew P();' '1: commit;' '2: pnew P();' > drawn.multi
sessions drawn.db < drawn.multi
said 'numbers that another session drew' 1 \
    $'busy 3 session 1 on numbers\nnew #3\ntx 4 committed\nnew #4\ntx 5 committed\n'

# Two sessions raise an object each, three times in a transaction, and are killed; twenty rounds over one file. What was printed is a front of
# the whole text; the next run finds at least the printed transactions, and at most one more, and each of them whole.
session_rounds() {
    local transaction=4 first=0 second=0 round shown settled
    yes $'1: begin;\n2: begin;\n1: #1.a();\n2: #2.a();\n1: #1.a();\n2: #2.a();\n1: #1.a();\n2: #2.a();\n2: commit;\n1: commit;' | head -n 40000 > long.multi
    for round in $(seq 20); do
        awk -v k="$transaction" 'BEGIN { for (i = 0; i < 8000; i++) printf "tx %d committed\n", k + i }' > whole
        killed 400 long.multi ./ode_multi killed_sessions.db || return 1
        settled_since "$transaction" 'show #1.n; show #2.n;' killed_sessions.db || return 1
        # session 2 commits before session 1
        second=$((second + 3 * ((settled + 1) / 2)))
        first=$((first + 3 * (settled / 2)))
        if [ "$(sed -n 's/^value //p' text | tr '\n' ' ')" != "$first $second " ]; then
            echo "  round $round: $(tr '\n' ' ' < text), expected $first and $second"
            return 1
        fi
        transaction=$((transaction + settled + 2))
    done
    echo "  $((transaction - 1)) transactions behind 20 kills of two sessions"
}

fresh killed_sessions.db
run run killed_sessions.db < two.ode
is 'sessions that are killed leave what they printed, twenty times' session_rounds 2> kill.shell
rm -f long.multi

# --- questions

fresh asked.db
{
    printf 'class T { int n; text s; void put(int k) { n = k; } event after put; };\nbegin;\n'
    seq 0 20 | sed "s/.*/pnew T(n = &, s = \"$(head -c 2048 /dev/zero | tr '\0' x)\");/"
    printf 'commit;\n'
} > asked.ode
run run asked.db < asked.ode
ended 'a file for questions is made' 0
cp asked.db asked.before

# 9,261 rows of 2,055 bytes have no room, 8,000 have.
run query asked.db <<< 'for x in T, y in T, z in T show x.s;'
said 'a text of more than 16,777,216 bytes is refused' 1 $'refused 1 output\n'
run query asked.db <<< 'for x in T, y in T, z in T suchthat x.n != 0 && y.n != 0 && z.n != 0 show x.s;'
ended '8,000 long rows are printed' 0
is 'all of them' [ "$(stat -c %s text) $(grep -c '^row "x*"$' text) $(tail -n 1 text)" = '16440010 8000 rows 8000' ]

run query asked.db <<< 'for x in T, y in T, z in T, u in T suchthat false show x;'
said '194,481 combinations of which none passes' 0 $'rows 0\n'
run query asked.db <<< 'show 1; for x in T suchthat x.n > 18 by -x.n show x, x.n; for x in U show x;'
said 'refusals of queries' 1 $'refused 1 syntax 0\nrow #21 20\nrow #20 19\nrows 2\nrefused 1 unknown name U\n'
run same asked.db <<< 'same T(): after put && n > 0, after put; same U(): any, any; same T(): any, any;'
said 'comparisons and a refusal' 1 $'differs 1\npoint after put\nsecond yes\nrefused 1 unknown name U\nsame\n'
is 'questions leave the file as it was' cmp asked.db asked.before

# --- a standby

mkdir shop
(cd shop && PATH="$folder:$PATH" sh "$examples/standby.sh" > ../text 2> ../errors)
status=$?
printed 'example standby' 0 "$examples/standby.out"

# same_records NAME FILE FILE: a dump of the one is that of the other.
same_records() {
    run dump "$2" < /dev/null
    cp text "$2.dump"
    run dump "$3" < /dev/null
    printed "$1" 0 "$2.dump"
}
same_records 'a run that ships leaves the records that any run leaves' stock.db shop/shop.db

# the first of the frames, which has its length in front, and those behind it
frames=shop/frames
length=$((4 + $(number "$frames" 0 4)))
head -c $((length + 3)) "$frames" > front
tail -c +$((length + 1)) "$frames" > behind

fresh standby.db
run follow standby.db < front
said 'a frame and three bytes of the next' 0 $'followed 1 skipped 0 rest 3\n'
run follow standby.db < "$frames"
said 'and then the whole stream' 0 $'followed 22 skipped 1 rest 0\n'
same_records 'the standby has the records of its primary' stock.db standby.db

fresh other.db
cp other.db other.before
run follow other.db < behind
said 'a stream without its first frame' 1 $'gap 2 1\n'
run follow other.db < <(zeros 4)
said 'four bytes that are no length' 1 $'bad frame 0\n'
is 'the file is as it was' cmp other.db other.before
run follow other.db < <(head -c "$length" "$frames" && zeros 4 && cat behind)
said 'a frame, and such bytes behind it' 1 "bad frame $length"$'\n'
run follow other.db < <(head -c $((length - 1)) "$frames")
said 'what was before them is applied, and a frame that is not whole is not' 0 "followed 0 skipped 0 rest $((length - 1))"$'\n'
run follow other.db < behind
said 'and the rest goes on' 0 $'followed 22 skipped 0 rest 0\n'

# ship and follow, side by side
fresh primary.db
fresh piped.db
./ode ship primary.db < "$examples/alarms.ode" 2> errors | timeout -k 5 60 ./ode follow piped.db > text 2>> errors
status=$?
said 'a standby at the end of a pipe' 0 "followed $(grep -c '^tx ' "$examples/alarms.out") skipped 0 rest 0"$'\n'
same_records 'it has what the example leaves' alarms.db piped.db

# A standby is killed ten times while it follows. It takes the stream from the start each time.
follow_rounds() {
    local round pid
    { cat declare.ode && yes 'pnew P(n = 5);' | head -n 2000; } > long.ode
    run ship killed_primary.db < long.ode
    cp text long.frames
    for round in $(seq 10); do
        ./ode follow killed_standby.db < long.frames > shown 2> errors &
        pid=$!
        sleep "0.$(printf '%03d' $((RANDOM % 100)))"
        kill -KILL "$pid" 2> kill.errors
        wait "$pid" 2> kill.errors
        run check killed_standby.db < /dev/null
        if [ "$status" -ne 0 ]; then
            echo "  round $round: status $status"
            return 1
        fi
    done
    run follow killed_standby.db < long.frames
    [[ $(cat text) =~ ^followed\ ([0-9]+)\ skipped\ ([0-9]+)\ rest\ 0$ ]] || return 1
    echo "  ${BASH_REMATCH[2]} of 2001 frames were there behind 10 kills"
    [ $((BASH_REMATCH[1] + BASH_REMATCH[2])) -eq 2001 ]
}

fresh killed_primary.db
fresh killed_standby.db
is 'a standby that is killed goes on behind its last frame' follow_rounds 2> kill.shell
same_records 'and has the records of its primary' killed_primary.db killed_standby.db
rm -f long.ode long.frames

# --- a file that an earlier program made

# the first slot of layout 1: the snapshot at 4,096 has 64 bytes, the journal begins at 4,160 and ends at 33,558,528
{
    printf '\xA5ODEBASE1'
    printf '\0\0\0\1\0\0\0\1\0\0\0\0\0\0\0\1'
    printf '\0\0\0\0\0\0\x10\0\0\0\0\0\0\0\0\x40'
    printf '\0\0\0\0\0\0\x10\x40\0\0\0\0\2\0\x10\0'
} > areas_slot
# an empty database of two areas
{
    cat areas_slot
    zeros $((4096 - 57))
    cat counters
    zeros 1
} > areas.db
cp areas.db areas.before
run check areas.db < /dev/null
said 'a check counts the records of a file of two areas' 0 $'good classes 0 objects 0 activations 0 entries 0\n'
run dump areas.db < /dev/null
said 'a dump prints them' 0 $'counters next 1 tx 1 entry 1\nclock none\n'
run init areas.db < /dev/null
said 'init refuses a file of two areas' 3 $'file exists\n'
run query areas.db <<< 'for x in P show x;'
said 'a query over a file of two areas' 1 $'refused 1 unknown name P\n'
is 'the file of two areas is as it was' cmp areas.db areas.before
run run areas.db < /dev/null
said 'a file of two areas is opened' 0 ''
is 'a run makes it one of the second format' [ "$(number areas.db 9 4)" -eq 2 ]
is 'and one of pages' [ "$(number areas.db 13 4)" -eq 2 ]
run dump areas.db < /dev/null
said 'it has the records that it had' 0 $'counters next 1 tx 1 entry 1\nclock none\n'
example first areas.db
example again areas.db

# a file of pages of the first format: a run puts the second into the other slot, and leaves the rest
{ head -c 12 new.db; printf '\1'; tail -c +14 new.db; } > older.db
cp older.db older.before
run check older.db < /dev/null
said 'a check counts the records of the first format' 0 $'good classes 0 objects 0 activations 0 entries 0\n'
run same older.db <<< 'same P(): any, any;'
said 'a comparison over a file of the first format' 1 $'refused 1 unknown name P\n'
is 'and leaves the file as it was' cmp older.db older.before
run run older.db < /dev/null
said 'a file of the first format is opened' 0 ''
is 'a run puts the second format into its other slot' [ "$(number older.db 2057 4)" -eq 2 ]
is 'what stands before that is as it was' cmp -n 2048 older.db older.before
example first older.db
cp older.before older_sessions.db
sessions older_sessions.db < /dev/null
said 'sessions on a file of the first format' 0 ''
is 'they put the second format into its other slot' [ "$(number older_sessions.db 2057 4)" -eq 2 ]
is 'a new file is one of pages' [ "$(number first.db 13 4)" -eq 2 ]

# --- files that hold no database

run run missing.db < "$examples/first.ode"
said 'a missing file holds no database' 3 $'no database\n'
is 'a run makes no file' [ ! -e missing.db ]
for mode in query same ship follow; do
    run "$mode" missing.db < /dev/null
    said "mode $mode of a missing file" 3 $'no database\n'
    is 'makes none' [ ! -e missing.db ]
done

cp "$examples/first.ode" script.db
run run script.db < "$examples/first.ode"
said 'a file of text holds no database' 3 $'no database\n'
is 'the file of text is as it was' cmp script.db "$examples/first.ode"

# an open slot with format 3; and a file without its last gate
{ head -c 12 new.db; printf '\3'; tail -c +14 new.db; } > format.db
cp format.db format.before
run run format.db < "$examples/first.ode"
said 'a newer format is refused' 3 $'newer format 3\n'
is 'the file of a newer format is as it was' cmp format.db format.before

head -c 4177 new.db > cut.db
cp cut.db cut.before
run run cut.db < "$examples/first.ode"
ended 'a file that is cut short is refused' 3
is 'its journal is told' grep -q '^bad file journal [0-9]*$' text
is 'the file that is cut short is as it was' cmp cut.db cut.before

# --- a script that a number gives

# gen FILE NUMBER: the same twice, side by side
fresh made.db
fresh again.db
timeout -k 5 300 ./ode gen made.db 4000 > made 2> errors &
timeout -k 5 300 ./ode gen again.db 4000 > text 2>> errors
status=$?
wait $! || status=$?
said 'gen says what the largest script comes to' 0 $'gen 4000 statements 6838 settled 4002 refused 0 bytes 132636\n'
is 'and says the same of another file' cmp made text
is 'and leaves the same file' cmp made.db again.db
rm -f made.db again.db

# --- wrong words

for words in '' 'run' 'run -x' 'fly f' 'check' 'dump -f' 'gen f' 'gen f 0' 'gen f 01' 'gen f 4001' 'gen -f 1' 'gen f 1 1' 'init' 'init -f' 'init f f' 'run f f' 'run f 1' 'run f -x' 'query' 'query -f' 'query f 1' 'same' 'same f f' 'ship' 'ship f 1' 'follow -f' 'follow' 'ask f'; do
    # shellcheck disable=SC2086 # the words are cut at blanks
    run $words < /dev/null
    said "wrong words: ode $words" 2 "$usage"
done
run init '' < /dev/null
said "wrong words: ode init ''" 2 "$usage"
run run '' < /dev/null
said "wrong words: ode run ''" 2 "$usage"
is 'wrong words make no file' [ ! -e f ]

# --- a disk that fails

mkdir directory.db
run run directory.db < "$examples/first.ode"
said 'run on a directory' 4 ''
run init directory.db < /dev/null
said 'init on a directory' 4 ''
run query directory.db < /dev/null
said 'query on a directory' 4 ''
run follow directory.db < /dev/null
said 'follow on a directory' 4 ''
run init missing/new.db < /dev/null
said 'init in a directory that is missing' 4 ''

# No write may go past 4,096 bytes; for init past 2,048.
fresh small.db
cp small.db small.before
(
    trap '' XFSZ
    ulimit -f 4
    run run small.db < "$examples/first.ode"
    exit "$status"
)
status=$?
said 'a write that the system refuses' 4 ''
is 'the file is as it was where no write was made' cmp small.db small.before
(
    trap '' XFSZ
    ulimit -f 2
    run init grown.db < /dev/null
    exit "$status"
)
status=$?
said 'an init that the system refuses' 4 ''
run init grown.db < /dev/null
said 'init again after one that failed' 0 $'ready\n'

# Permissions don't bind root, so these run as nobody there.
echo kept > probe
chmod 444 probe
bound=none
for way in '' 'setpriv --reuid=65534 --regid=65534 --clear-groups' 'runuser -u nobody --'; do
    # shellcheck disable=SC2086 # the words are cut at blanks
    if $way sh -c 'test -r probe && test -x ode && ! test -w probe' 2> /dev/null; then
        bound=$way
        break
    fi
done
if [ "$bound" = none ]; then
    skip 'a file that may only be read: nobody can be run here whom permissions bind'
else
    fresh kept.db
    cp kept.db kept.before
    chmod 444 kept.db
    read -ra as <<< "$bound"
    run run kept.db < declare.ode
    said 'run on a file that may only be read' 4 ''
    run check kept.db < /dev/null
    said 'check on a file that may only be read' 0 $'good classes 0 objects 0 activations 0 entries 0\n'
    run query kept.db <<< 'for x in P show x;'
    said 'query on a file that may only be read' 1 $'refused 1 unknown name P\n'
    chmod 000 kept.db
    run run kept.db < declare.ode
    said 'run on a file that may not be read' 4 ''
    as=()
    chmod 644 kept.db
    is 'the file that may only be read is as it was' cmp kept.db kept.before
fi

# --- a script that can't be read

fresh source.db
cp source.db source.before
run run source.db < directory.db
said 'a script that is a directory' 5 ''
run query source.db < directory.db
said 'queries that are a directory' 5 ''
run follow source.db < directory.db
said 'a stream that is a directory' 5 ''
is 'the file is as it was where the script failed' cmp source.db source.before

# --- an output that fails

# A pipe whose reader is gone.
fresh pipe.db
mkfifo pipe
exec 8<> pipe
exec 9> pipe 8<&-
timeout -k 5 60 ./ode run pipe.db < declare.ode >&9 2> errors
status=$?
ended 'a pipe without a reader' 6
exec 9>&-
run run pipe.db < declare.ode
said 'what was settled before the print failed is kept' 1 $'refused 1 duplicate P\n'

# A pipe that is full, and whose reader then goes. The refusals change nothing.
fresh full.db
cp full.db full.before
yes 'x;' | head -n 8000 > refused.ode
timeout -k 5 60 ./ode run full.db < refused.ode 2> errors | { sleep 1; head -c 1 > front; }
status=${PIPESTATUS[0]}
ended 'a full pipe that is closed early' 6
is 'something was printed into the full pipe' [ -s front ]
is 'the file is as it was behind the full pipe' cmp full.db full.before

# A closed output: nothing that is printed gets into the file.
fresh closed.db
timeout -k 5 60 ./ode run closed.db < declare.ode >&- 2> errors
status=$?
ended 'run with a closed output' 6
run run closed.db < declare.ode
said 'the file is whole after a closed output' 1 $'refused 1 duplicate P\n'
timeout -k 5 60 ./ode init silent.db < /dev/null >&- 2> errors
status=$?
ended 'init with a closed output' 6

# A device that is full.
if [ -c /dev/full ]; then
    fresh device.db
    timeout -k 5 60 ./ode run device.db < declare.ode > /dev/full 2> errors
    status=$?
    ended 'run onto a full device' 6
    timeout -k 5 60 ./ode > /dev/full 2> errors
    status=$?
    ended 'the usage line onto a full device' 6
    timeout -k 5 60 ./ode run missing.db < /dev/null > /dev/full 2> errors
    status=$?
    ended 'the line of a missing file onto a full device' 6
    timeout -k 5 60 ./ode query asked.db <<< 'for x in T show x;' > /dev/full 2> errors
    status=$?
    ended 'rows onto a full device' 6
    timeout -k 5 60 ./ode init ready.db < /dev/null > /dev/full 2> errors
    status=$?
    ended 'ready onto a full device' 6
    run run ready.db < "$examples/first.ode"
    printed 'a file whose ready was not printed is whole' 0 "$examples/first.out"
else
    skip 'a full device: there is no /dev/full'
fi

# --- a large file

# classes FILE: 5,000 classes, each a transaction of its own.
classes() {
    run run "$1" < classes.ode
    ended "5,000 classes: $(basename "$1")" 0
    is '5,000 transactions are printed' [ "$(grep -c '^tx [0-9]* committed$' text)" -eq 5000 ]
    run run "$1" <<< 'pnew C5000(n = 7); show #1.n;'
    said 'the last class is there' 0 $'new #1\ntx 5001 committed\nvalue 7\ntx 5002 committed\n'
}

# damaged NAME WANTED: the file damaged.db is refused with a line of this form, and stays as it was.
damaged() {
    cp damaged.db damaged.before
    run run damaged.db < declare.ode
    ended "$1 is no want of memory" 3
    is "$1 is told" grep -q "^bad file $2\$" text
    is "the file stays as it was: $1" cmp damaged.db damaged.before
}

# In memory, where a sync takes no time.
if [ -d /dev/shm ] && [ -w /dev/shm ]; then
    large=$(mktemp -d /dev/shm/ode.XXXXXX)
    trap 'rm -rf "$folder" "$large"' EXIT
    seq 5000 | sed 's/.*/class C& { int n; };/' > classes.ode
    fresh "$large/classes.db"
    classes "$large/classes.db"
    is 'the journal of 5,000 transactions left its first region' [ "$(number "$large/classes.db" 2048 1)" -eq 165 ]

    # One that is full to its last byte: what has no room aborts, and all else goes on.
    fresh "$large/full.db"
    python3 "$here/checks/full.py" fill > full.ode
    run run "$large/full.db" < full.ode
    ended 'a database is filled' 0
    python3 "$here/checks/full.py" last > full.ode
    python3 "$here/checks/full.py" text > full.out
    run run "$large/full.db" < full.ode
    printed 'a full database' 0 full.out
    rm "$large/full.db"

    # Files of either layout with more records than its keeper takes: their size is told behind all other rules.
    for layout in areas pages; do
        for kind in whole ungiven; do
            python3 "$here/checks/heavy.py" "$layout" "$kind" "$large/heavy.db" > heavy.out
            run check "$large/heavy.db" < /dev/null
            printed "more records than a keeper takes: $layout, $kind" 3 heavy.out
        done
    done
    rm "$large/heavy.db"

    # The length of the first record of a snapshot, one too low.
    cp areas.before damaged.db
    printf '\x2C' | dd of=damaged.db bs=1 seek=$((4096 + 18)) conv=notrunc 2> errors
    damaged 'a damaged record' 'journal [0-9]*'

    # Page 1 has more records than there is room for. It is full, so that the journal has no image of it.
    cp "$large/classes.db" damaged.db
    printf '\xFF\xFF' | dd of=damaged.db bs=1 seek=$((33558528 + 4096)) conv=notrunc 2> errors
    damaged 'a damaged page' 'page 1'
else
    skip 'a large file: there is no /dev/shm'
fi

# --- scripts that are high or long

# piled COUNT BEFORE MIDDLE AFTER: so many times the first text, the middle, and so many times the last.
piled() {
    yes "$2" | head -n "$1" | tr -d '\n'
    printf '%s' "$3"
    yes "$4" | head -n "$1" | tr -d '\n'
}

fresh high.db
{
    printf 'show '
    piled 30000 '(' 1 ')'
    printf ';\nclass A { void m() { '
    piled 3000 'if (true) { ' '' '} '
    printf '} };\nshow '
    piled 60000 '!' true ''
    printf ';\nshow 1'
    piled 16000 ' + 1' '' ''
    printf ';\nsay "on";\n'
} > high.ode
run run high.db < high.ode
said 'what is too high is refused, and the run goes on' 1 \
    $'refused 1 too deep 68\nrefused 2 too deep 777\nrefused 3 too deep 68\nrefused 4 too deep 259\nsaid on\ntx 1 committed\n'

# A piece of 64 MiB, and the most memory that the run on it has, in KiB.
if command -v python3 > python.path; then
    fresh piece.db
    {
        printf 'say "before";\n'
        head -c 67108800 /dev/zero | tr '\0' x
    } > piece.ode
    python3 - > peak 2> errors << 'END'
import resource, subprocess, sys
ran = subprocess.run(["./ode", "run", "piece.db"], stdin=open("piece.ode"), stdout=open("text", "w"), stderr=open("errors", "w"))
print(resource.getrusage(resource.RUSAGE_CHILDREN).ru_maxrss)
sys.exit(ran.returncode)
END
    status=$?
    said 'a piece of 64 MiB' 8 $'said before\ntx 1 committed\n'
    is "a piece of 64 MiB takes no memory: $(cat peak) KiB" [ "$(cat peak)" -lt 32768 ]
    rm -f piece.ode

    is '200 random scripts, whole and in two halves' python3 "$here/checks/scripts.py" "$folder/ode" 200
    is 'the cases, whole and opened again behind each transaction' python3 "$here/checks/cases.py" "$folder/ode"
    is 'files that an earlier program stored go on' python3 "$here/checks/stored.py" "$folder/ode"
else
    skip 'random scripts, and the cases: there is no python3'
fi

# --- the calls that the system sees

# traced FILE WORD..: a run on this file under strace, with these words for it; its calls are in the file `trace`.
traced() {
    local file=$1
    shift
    timeout -k 5 60 strace -o trace "$@" ./ode run "$file" > text 2> errors
    status=$?
}

# calls: the names of the calls that were traced, in their order, without the reads.
calls() {
    sed -n 's/^\([a-z0-9]*\)(.*/\1/p' trace | grep -v '^pread64$' | tr '\n' ' '
}

# without_checkpoints: calls without those of the checkpoints in front of transactions: the pages, a sync, and then the other
# region's first gate, perhaps the other slot's, its header and its gate again, each with a sync.
without_checkpoints() {
    sed -E 's/(pwrite64 )+fdatasync (pwrite64 fdatasync ){3,4}((pwrite64 fdatasync ){2}write )/\3/g'
}

# in_order COUNT: one sync at the opening, and for each of so many transactions its frame, a sync, its gate, a sync and its
# text; besides these, the calls of checkpoints.
in_order() {
    local wanted='fdatasync ' found round
    for round in $(seq "$1"); do
        wanted+='pwrite64 fdatasync pwrite64 fdatasync write '
    done
    found=$(calls | without_checkpoints)
    if [ "$found" != "$wanted" ]; then
        echo "  $(calls | head -c 400)"
        return 1
    fi
}

# made CALL LEAST MOST: the run made this call so often.
made() {
    local count
    count=$(grep -c "^$1(" trace)
    if [ "$count" -lt "$2" ] || [ "$count" -gt "$3" ]; then
        echo "  $count calls of $1"
        return 1
    fi
}

if command -v strace > strace.path && strace -o trace true 2> errors; then
    watched=trace=pread64,pwrite64,write,fdatasync,fsync
    fresh traced.db
    run run traced.db < declare.ode
    printf 'class C { int n; void add(int k) { n = n + k; } };\npnew C();\n' > counter.ode
    run run traced.db < counter.ode
    yes '#1.add(1);' | head -n 10 > ten.ode
    traced traced.db -e "$watched" < ten.ode
    ended 'a run under strace' 0
    is 'two syncs a transaction, one at the opening, and the writes in their order' in_order 10
    is 'and no checkpoint' made fdatasync 21 21
    if [ -e "$large/classes.db" ]; then
        # The journal's region has 256 blocks. Each page in place is read by the start and by five passes of the opening, at most once by each.
        traced "$large/classes.db" -e "$watched" < /dev/null
        pages=$((($(stat -c %s "$large/classes.db") - 33558528) / 4096))
        is 'a journal of 5,000 transactions is read in blocks, beside the pages' made pread64 0 $((256 + 6 * pages + 24))
    fi

    cp traced.db traced.before
    timeout -k 5 60 strace -o trace -e "$watched" ./ode query traced.db <<< 'for x in C show x.n;' > text 2> errors
    status=$?
    said 'a query under strace' 0 $'row 10\nrows 1\n'
    is 'it makes one sync and writes nothing but its rows' [ "$(calls)" = 'fdatasync write ' ]
    is 'its file is as it was' cmp traced.db traced.before

    fresh traced_standby.db
    timeout -k 5 60 strace -o trace -e "$watched" ./ode follow traced_standby.db < "$frames" > text 2> errors
    status=$?
    said 'a standby under strace' 0 $'followed 23 skipped 0 rest 0\n'
    is 'two syncs a frame, and one at the opening' made fdatasync 47 47

    # 4,096 queued actions, of which 2,048 wait at a time, run in as many transactions, each with its two syncs, and in no more.
    fresh queue.db
    cat > queue.ode << 'END'
class P {
    int n;
    void a() { }
    event after a;
    trigger perpetual dependent t(): after a ==> { if (n < 2047) { n = n + 1; a(); a(); } }
};
begin; pnew P(); activate #1.t(); commit;
begin; #1.a(); #1.a(); commit;
END
    traced queue.db -e "$watched" < queue.ode
    ended 'a run that queues 4,096 actions' 0
    is 'they run in 4,096 transactions, and in no more' [ "$(tail -n 1 text)" = 'tx 4099 committed' ]
    is 'two syncs for each of these' in_order 4099

    # Behind a sync that failed the next one answers that all is well, so it is never made.
    for number in 1 2 3; do
        cp traced.db sync.db
        traced sync.db -e trace=fdatasync -e "inject=fdatasync:error=EIO:when=$number" < ten.ode
        ended "sync $number fails" 4
        is "sync $number is not tried again" [ "$(grep -c '^fdatasync(' trace)" -eq "$number" ]
    done
    traced traced.db -P "$folder/traced.db" -e trace=pread64 -e inject=pread64:error=EIO:when=2 < ten.ode
    ended 'a read of the file fails' 4
    traced traced.db -P /dev/null -e trace=openat -e inject=openat:error=EMFILE < ten.ode
    ended 'a place of a standard stream is not taken' 4
else
    skip 'the calls that the system sees: strace does not run here'
fi

# --- a run that is killed

# What a run of 20,000 times `pnew P(n = 5);` prints from this transaction and this object on.
expected() {
    awk -v k="$1" -v o="$2" 'BEGIN { for (i = 0; i < 20000; i++) printf "new #%d\ntx %d committed\n", o + i, k + i }'
}

# Twenty rounds over one file. What was printed is a front of the whole text; the next run finds at least the printed
# transactions, and at most one more, and goes on with the next numbers.
kill_rounds() {
    local transaction=2 object=1 round shown settled
    yes 'pnew P(n = 5);' | head -n 20000 > long.ode
    for round in $(seq 20); do
        expected "$transaction" "$object" > whole
        killed 700 long.ode ./ode run killed.db || return 1
        settled_since "$transaction" 'pnew P(n = 7);' killed.db || return 1
        if [ "$(head -n 1 text)" != "new #$((object + settled))" ]; then
            echo "  round $round: $(head -n 1 text), expected object $((object + settled))"
            return 1
        fi
        transaction=$((transaction + settled + 1))
        object=$((object + settled + 1))
    done
    echo "  $((transaction - 1)) transactions behind 20 kills"
    run run killed.db <<< "show #1.n; show #$((object - 1)).n;"
    [ "$status" -eq 0 ] && [ "$(sed -n 's/^value //p' text | tr '\n' ' ')" = '5 7 ' ]
}

fresh killed.db
run run killed.db < declare.ode
is 'a run that is killed leaves what it printed, twenty times' kill_rounds 2> kill.shell

# --- a long script

fresh many.db
{
    cat "$examples/first.ode"
    yes 'show #1.n;' | head -n 1000
} > many.ode
{
    cat "$examples/first.out"
    for ((k = 4; k < 1004; k++)); do printf 'value 5\ntx %d committed\n' "$k"; done
} > many.out
start=$(date +%s%N)
run run many.db < many.ode
end=$(date +%s%N)
printed 'a script of 1,000 shows ends within 60 seconds' 0 many.out
echo "  1,000 shows took $(((end - start) / 1000000)) ms"

# blanks COUNT: a class, and blanks behind it up to so many bytes.
blanks() {
    cat declare.ode
    head -c $(($1 - $(wc -c < declare.ode))) /dev/zero | tr '\0' ' '
}

fresh most.db
blanks 67108864 > long.ode
run run most.db < long.ode
said 'a script of 67,108,864 bytes' 0 $'class P\ntx 1 committed\n'
fresh over.db
blanks 67108865 > long.ode
run run over.db < long.ode
said 'a script of a byte more' 9 $'class P\ntx 1 committed\n'
rm -f long.ode

# The same frames over and over, one byte too many: those that are whole before it are applied.
cp "$frames" long.frames
while [ "$(stat -c %s long.frames)" -lt 67108865 ]; do
    cat long.frames long.frames > longer.frames
    mv longer.frames long.frames
done
truncate -s 67108865 long.frames
fresh long_standby.db
run follow long_standby.db < long.frames
said 'a stream of a byte more' 9 ''
same_records 'its frames are applied' stock.db long_standby.db
rm -f long.frames

if [ "$skipped" -gt 0 ]; then echo "$skipped skipped"; fi
echo "$passed passed, $failed failed"
[ "$failed" -eq 0 ]

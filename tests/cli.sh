#!/bin/sh
# Tries ./gustmirror as a person at a terminal would: every example, a file for each refusal, and wrong uses.
# The last line is 'N passed, 0 failed'. Needs the Rattle kit (rt) and a POSIX shell.
set -u
CDPATH='' cd -- "$(dirname -- "$0")/.." || exit 1
room=$(mktemp -d) || exit 1
trap 'rm -rf "$room"' EXIT
passed=0 failed=0

check() { # WHAT HELD, where HELD is the status of a test
    if [ "$2" -eq 0 ]; then
        passed=$((passed + 1))
    else
        failed=$((failed + 1))
        printf 'failed: %s\n' "$1"
    fi
}

# ---- what a run wrote and how it ended

run() {
    ./gustmirror "$@" >"$room/out" 2>"$room/err"
    ended=$?
}

is_one_line() { [ "$(wc -l <"$1")" -eq 1 ] && [ "$(wc -c <"$1")" -gt 1 ]; }

# The run ended so, printed exactly the file, and said nothing.
gave() { [ "$ended" -eq 0 ] && cmp -s "$room/out" "$1" && [ ! -s "$room/err" ]; }

# The run ended with 2, printed the line of the refusal and no more, and said in one line whose it is.
refused() { # LINE WHOSE
    printf '%s\n' "$1" >"$room/line"
    number=${1#refused }
    [ "$ended" -eq 2 ] && cmp -s "$room/out" "$room/line" && is_one_line "$room/err" || return 1
    case $(cat "$room/err") in "refused: $2 breaks rule ${number%% *}: "?*) ;; *) return 1 ;; esac
}

# The run ended with 1, printed nothing, and said in one line why.
declined() { [ "$ended" -eq 1 ] && [ ! -s "$room/out" ] && is_one_line "$room/err"; }

# ---- round files: a word is a number of two bytes, or 4:N or 8:N of four or eight

byte() { printf "\\$(printf '%03o' "$1")"; }
two() { byte $(($1 % 256)); byte $(($1 / 256)); }
four() { two $(($1 % 65536)); two $(($1 / 65536)); }
eight() { four $(($1 % 4294967296)); four $(($1 / 4294967296)); }
round() {
    for word in "$@"; do
        case $word in
        4:*) four "${word#4:}" ;;
        8:*) eight "${word#8:}" ;;
        *) two "$word" ;;
        esac
    done >"$room/round"
}

years='2 365 1 0 365 0 0'
pots='1 8:100000 8:100000'
technologies='1 0 10000 4:20000 4:0 10000 4:0 4:0 10000'
applications='1 0 0 365 0 4:100 8:0'
bid='0 0 365 4:100'

refuses() { # LINE WHOSE: every command on the file that was made
    for command in clear show value; do
        run "$command" "$room/round"
        refused "$1" "$2"
        check "$command: $1, $2" $?
    done
}

says() { # WORDS: which part of the rule the last refusal names
    grep -q -F -- "$1" "$room/err"
    check "a refusal that says: $1" $?
}

# ---- the examples

# On first use the programs are proved and built, which is said on standard error.
./gustmirror show examples/round-a.round >"$room/out" || exit 1

for listing in examples/*.listing; do
    name=${listing%.listing}
    run clear "$name.round"
    case $(cat "$listing") in
    'refused '*) cmp -s "$room/out" "$listing" && [ "$ended" -eq 2 ] && is_one_line "$room/err" ;;
    *) gave "$listing" ;;
    esac
    check "clear $name.round" $?
done

run clear examples/refused.round
refused 'refused 7 at 206' 'bid 6'
check 'the seventh bid of examples/refused.round' $?

run show examples/round-a.round
gave crates/show/stdout
check 'show examples/round-a.round' $?

run show examples/round-5.round
[ "$ended" -eq 0 ] && [ ! -s "$room/err" ] && [ "$(grep -c '^  bid ' "$room/out")" -eq "$(grep -c '^bid ' examples/round-5.listing)" ]
check 'show examples/round-5.round has every bid' $?

# ---- the valuation

run value examples/valuation.round
gave crates/pencil/stdout
check 'value examples/valuation.round' $?

# What docs/VALUATION.md works through are the lines of bids 0 to 4, each in its start year.
for worked in 0:0 1:0 2:0 3:0 4:1; do
    run value "${worked%:*}" examples/valuation.round
    [ "$ended" -eq 0 ] && [ "$(head -n 1 "$room/out")" = "bid ${worked%:*}" ] || ended=1
    awk -v year="year ${worked#*:}" '/^year / { on = $0 == year } on' "$room/out" >>"$room/lines"
done
awk '/^```$/ { on = !on; next } on' docs/VALUATION.md | cmp -s - "$room/lines" && [ "$ended" -eq 0 ] && [ "$(wc -l <"$room/lines")" -eq 80 ]
check 'the lines of V1 to V5 in docs/VALUATION.md' $?

for number in 5 256 65535 65536 99999 100000; do
    run value "$number" examples/valuation.round
    declined
    check "value $number: no such bid" $?
done

for word in x 1x -1 ''; do
    run value "$word" examples/valuation.round
    declined
    check "value '$word': no number" $?
done

run value 4 examples/refused.round
refused 'refused 7 at 206' 'bid 6'
check 'value of a bid of a refused file' $?

run value 1 - <examples/valuation.round
cp "$room/out" "$room/piped"
run value 1 examples/valuation.round
gave "$room/piped"
check 'value of a bid of a file on standard input' $?

run clear - <examples/round-a.round
gave examples/round-a.listing
check 'clear of a file on standard input' $?

run clear - <examples/refused.round
refused 'refused 7 at 206' 'bid 6'
check 'clear of a refused file on standard input' $?

root=$(pwd -P)
(cd "$room" && "$root/gustmirror" clear "$root/examples/round-a.round" >out 2>err)
ended=$?
gave examples/round-a.listing
check 'clear, called from another folder' $?

# ---- a file for each refusal

# shellcheck disable=SC2086
{
    round $years $pots $technologies $applications 1 $bid 4:4000
    run show "$room/round"
    [ "$ended" -eq 0 ] && grep -q '^  1     365   valuation  0.0000$' "$room/out"
    check 'the file that the refused ones vary is accepted' $?

    round $years $pots $technologies $applications 0
    run value "$room/round"
    gave /dev/null
    check 'value of a file without bids' $?

    : >"$room/round"
    refuses 'refused 1 at 0' 'the count of years'
    round $years $pots $technologies $applications 1 $bid 4000
    refuses 'refused 1 at 82' 'bid 0'
    round $years 1 8:100000
    refuses 'refused 1 at 16' 'pot 0'
    round $years 5
    refuses 'refused 2 at 14' 'the count of pots'
    for pots_added in 16384 16389 32768 32773 49152 49157; do
        round $years $pots_added 8:100000 8:100000 4:100 $technologies $applications 0
        refuses 'refused 2 at 14' 'the count of pots'
        says ': count outside its range'
    done
    for pots_added in 16385 16388; do
        round $years $pots_added 8:100000 8:100000 4:100 $technologies $applications 0
        refuses 'refused 2 at 14' 'the count of pots'
        says ': 16,384 added without 32,768'
    done
    round $years 32769 8:100000 8:100000 100
    refuses 'refused 1 at 16' 'pot 0'
    round $years 49153 8:100000 8:100000 4:100 100
    refuses 'refused 1 at 16' 'pot 0'
    round $years $pots 0
    refuses 'refused 2 at 32' 'the count of technologies'
    round $years $pots $technologies 65
    refuses 'refused 2 at 58' 'the count of applications'
    round $years $pots $technologies $applications 257
    refuses 'refused 2 at 80' 'the count of bids'
    round 2 365 1 0 364 0 0 $pots $technologies $applications 0
    refuses 'refused 3 at 8' 'year 1'
    round $years 1 8:0 8:1000000000001 $technologies $applications 0
    refuses 'refused 4 at 16' 'pot 0'
    says ': a budget above '
    round $years 32769 8:0 8:0 4:20000001 $technologies $applications 0
    refuses 'refused 4 at 16' 'pot 0'
    says ': a cap above '
    round $years 49153 8:0 8:0 4:20000001 4:0 $technologies $applications 0
    refuses 'refused 4 at 16' 'pot 0'
    says ': a cap above '
    round $years $pots 2 0 10000 4:20000 4:0 10000 4:0 4:0 10000 1 10000 4:20000 4:0 10000 4:0 4:0 10000
    refuses 'refused 5 at 58' 'technology 1'
    round $years $pots $technologies 2 0 0 365 0 4:100 8:0 0 0 365 0 4:100 8:0 0
    refuses 'refused 6 at 80' 'application 1'
    round $years $pots $technologies $applications 1 $bid 4:20001
    refuses 'refused 7 at 82' 'bid 0'
    round $years $pots $technologies $applications 2 $bid 4:4000 $bid 4:4000
    refuses 'refused 8 at 96' 'bid 1'
    round $years $pots $technologies $applications 4 $bid 4:10 $bid 4:20 $bid 4:30 $bid 4:40
    refuses 'refused 9 at 124' 'bid 3'
    round $years $pots $technologies $applications 1 $bid 4:4000 0
    refuses 'refused 10 at 96' 'the file'
    round $years $pots $technologies $applications 1 $bid 4:4001
    refuses 'refused 11 at 82' 'bid 0'
}

# ---- the end of a pot's line: its cap, and then its drawn number

# show_as NAME POTS...: what show prints of the round with these pots
show_as() {
    name=$1
    shift
    # shellcheck disable=SC2086
    round $years "$@" $technologies $applications 0
    run show "$room/round"
    [ "$ended" -eq 0 ] && cp "$room/out" "$room/$name"
}

# tail_of NAME OTHER: what the other has more, at the end of the one line in which the two differ
tail_of() {
    awk 'NR == FNR { line[FNR] = $0; lines = FNR; next }
        $0 != line[FNR] { differ++; longer = index($0, line[FNR]) == 1; print substr($0, length(line[FNR]) + 1) }
        END { exit !(FNR == lines && differ == 1 && longer) }' "$room/$1" "$room/$2"
}

show_as plain 1 8:100000 8:100000 && show_as capped 32769 8:100000 8:100000 4:250 && show_as drawn 49153 8:100000 8:100000 4:250 4:4294967295 &&
    more=$(tail_of capped drawn) && [ "$more" = '; drawn number 4294967295' ]
check 'show of a drawn number after a cap' $?

show_as drawn 49153 8:100000 8:100000 4:4294967295 4:0 && more=$(tail_of plain drawn) && [ "$more" = '; cap none; drawn number 0' ]
check 'show of a drawn number without a cap' $?

run show examples/drawn.round
[ "$ended" -eq 0 ] && [ "$(grep -c 'drawn number [0-9]*$' "$room/out")" -eq 2 ] && grep -q 'drawn number 7$' "$room/out"
check 'show examples/drawn.round has both drawn numbers' $?

# ---- wrong uses

run
[ "$ended" -eq 0 ] && grep -q '^usage: ' "$room/out" && [ ! -s "$room/err" ]
check 'no arguments: the usage' $?

run clear "$room/none"
declined
check 'a file that is not there' $?

run clear examples
declined
check 'a folder' $?

run clear ''
declined
check 'an empty name' $?

run clear
declined
check 'no file' $?

run clear examples/round-a.round examples/round-5.round
declined
check 'two files' $?

run value 1 2 examples/round-a.round
declined
check 'two bids' $?

run value
declined
check 'value of no file' $?

run settle examples/round-a.round
declined
check 'an unknown command' $?

# root may read every file
if [ "$(id -u)" -ne 0 ]; then
    : >"$room/shut"
    chmod 000 "$room/shut"
    run clear "$room/shut"
    declined
    check 'a file that cannot be read' $?
fi

printf '%s passed, %s failed\n' "$passed" "$failed"
[ "$failed" -eq 0 ]

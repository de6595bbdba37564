#!/usr/bin/env bash
# Proves and builds pert-recheck, and tries it: the shed is certified, changed certificates and decks are refused, and each status is given.
# Then each of its tests is weakened in turn, and Coq must leave a goal open (tests/coq/weakened.py).
#
#   tests/coq/run.sh

# shellcheck disable=SC2016 # the changes are for sed
set -u
cd "$(dirname "$0")/../.." || exit 1
case ${1:-} in -h | --help) sed -n '2,/^set/s/^# \{0,1\}//p' tests/coq/run.sh && exit 0 ;; esac
make -s recheck || exit 1
scratch=$(mktemp -d) || exit 1
trap 'rm -rf "$scratch"' EXIT
program=$PWD/bin/pert-recheck
deck=$PWD/examples/shed.csv
right=$PWD/examples/shed.certificate
passed=0
failed=0

# expect NAME STATUS OUTPUT: how the program ended just now, with its standard output in $scratch/out
expect() {
    if [ "$status" -eq "$2" ] && [ "$(cat "$scratch/out")" = "$3" ]; then
        passed=$((passed + 1))
    else
        failed=$((failed + 1))
        printf 'FAILED coq: %s: status %s, %s; wanted %s, %s\n' "$1" "$status" "$(cat "$scratch/out")" "$2" "$3"
    fi
}

# check DECK CERTIFICATE: runs the program
check() {
    "$program" "$1" <"$2" >"$scratch/out" 2>"$scratch/err"
    status=$?
}

check "$deck" "$right" && expect 'the right certificate' 0 'certified 2'
sed 's/^ACT B 5 3 0/ACT B 5 2 0/' "$right" >"$scratch/changed"
check "$deck" "$scratch/changed"; expect 'a changed flow' 6 'not certified line 15 reason 9'
sed 's/$/\r/' "$right" >"$scratch/changed"
check "$deck" "$scratch/changed"; expect 'CR LF' 6 'not certified line 1 reason 0'
sed '$d' "$right" >"$scratch/changed"
check "$deck" "$scratch/changed"; expect 'no END' 6 'not certified line 24 reason 0'
cp "$right" "$scratch/changed" && printf x >>"$scratch/changed"
check "$deck" "$scratch/changed"; expect 'a byte after END' 6 'not certified line 25 reason 0'
sed 's/^ACT,B,M,T,W1.2,4,5,12,5/ACT,B,M,T,W1.2,4,5,12,6/' "$deck" >"$scratch/deck.csv"
check "$scratch/deck.csv" "$right"; expect 'another deck' 6 'not certified line 8 reason 2'

# refused NAME CHANGE LINE: the deck, changed so, is refused with this line on standard error
refused() {
    sed "$2" "$deck" >"$scratch/deck.csv"
    check "$scratch/deck.csv" "$right"
    expect "$1" 1 ''
    [ "$(cat "$scratch/err")" = "pert-recheck: $scratch/deck.csv: $3" ] || { echo "FAILED coq: $1: $(cat "$scratch/err")"; failed=$((failed + 1)); }
}
no_project='the cards make no project'
refused 'a quoted kind' 's/^ACT,A/"ACT",A/' 'line 8 is no card as pert migrate writes it'
refused 'an empty row' '5s/$/\n/' 'line 6 is no card as pert migrate writes it'
refused 'CR LF in the deck' 's/$/\r/' 'line 1 is no card as pert migrate writes it'
refused 'a card after END' '$s/$/\nEND/' 'line 14 is no card as pert migrate writes it'
refused 'no END' '$d' 'line 13 is no card as pert migrate writes it'
refused 'a code twice' 's/^EVENT,M/EVENT,S/' "$no_project"
refused 'an unknown event' 's/^ACT,A,S,M/ACT,A,S,N/' "$no_project"
refused 'an activity into the start' 's/^ACT,A,S,M/ACT,A,M,S/' "$no_project"
refused 'crash above normal' 's/,4,2,10,3,Dig/,4,5,10,3,Dig/' "$no_project"

"$program" >"$scratch/out" 2>&1; status=$?
expect 'no word' 2 'usage: pert-recheck DECK < CERTIFICATE'
check "$scratch/none.csv" "$right"; expect 'no such deck' 4 ''
check "$deck" "$scratch"; expect 'a folder as certificate' 4 ''
"$program" "$deck" <&- >"$scratch/out"; status=$?
expect 'standard input is closed' 4 ''
if [ -c /dev/full ]; then
    "$program" "$deck" <"$right" >/dev/full; status=$?
    : >"$scratch/out" && expect 'the device is full' 5 ''
fi
[ "$failed" -eq 0 ] && tests/coq/weakened.py || failed=$((failed + 1))
echo "coq: proved without axioms; $passed passed, $failed failed"
[ "$failed" -eq 0 ]

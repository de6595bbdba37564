#!/usr/bin/env bash
# Gives the built programs truncated decks, and the largest that are allowed.
#
#   tests/hostile/decks.sh [FOLDER]     FOLDER: where the programs are (default: as `rt ci` leaves them)
#
# Every form refuses each prefix of the small deck, at the record where it is truncated or at the missing END after it; so does `arrows` with a small
# deck of tasks. If lines of that deck are left out, doubled, exchanged or changed, `arrows` writes a plan that is accepted, or refuses the deck with
# one line. Then come 20,000 activities in a chain and side by side, a cycle of 4,900, and 4,000 tasks in a chain and in a cycle. Each form
# prints what is worked out here by hand, in at most `limit` seconds of processor time.
set -u
export LC_ALL=C
top=$(cd "$(dirname "$0")/../.." && pwd)
folder=${1:+$(cd "$1" && pwd)}
limit=20
pert=${folder:-$top/crates/pert/out}/pert
pert_check=${folder:-$top/crates/pert_check/out}/pert_check
for program in "$pert" "$pert_check"; do
    [ -x "$program" ] || { echo "hostile: no program at $program (run 'make' or 'rt ci' first)"; exit 1; }
done
scratch=$(mktemp -d) || exit 1
trap 'rm -rf "$scratch"' EXIT
cd "$scratch" || exit 1
tried=0
failed=0

fail() {
    failed=$((failed + 1))
    echo "FAILED decks: $1: status $status, $(head -c 100 out | head -n 1), $(head -c 100 err)"
}

# answers NAME STATUS WORD..: pert with these words answers so on `deck`, and what it writes is in `wanted` or `wanted-fault`
answers() {
    local name=$1 want=$2
    shift 2
    tried=$((tried + 1))
    (ulimit -t "$limit" && exec "$pert" "$@") <deck >out 2>err
    status=$?
    if [ "$status" -ne "$want" ] || ! cmp -s out wanted || ! cmp -s err wanted-fault; then fail "$name, $*"; fi
}

# fronts DECK FORM..: each prefix of the deck is refused by one of the forms in turn. `cut` is the record in which a prefix ends, or the one after
# its last.
fronts() {
    local whole=$1 size length form cut told
    shift
    size=$(wc -c <"$whole")
    for ((length = 0; length < size - 1; length++)); do
        head -c "$length" "$whole" >deck
        cut=$(($(wc -l <deck) + 1))
        form=${*:length % $# + 1:1}
        tried=$((tried + 1))
        # shellcheck disable=SC2086  # a form may have two words
        "$pert" $form <deck >out 2>err
        status=$?
        case $(cat err) in
            "F12 record $cut: no END") [ "$(tail -c 1 deck)" = '' ] && told=yes || told=no ;;
            "F12 record $((cut + 1)): no END") [ "$(tail -c 1 deck)" != '' ] && told=yes || told=no ;;
            "F3 record 1: first card is not PROJECT") [ "$cut" -eq 1 ] && told=yes || told=no ;;
            "F"[4678]" record $cut: "*) [ "$(tail -c 1 deck)" != '' ] && told=yes || told=no ;;
            *) told=no ;;
        esac
        if [ "$status" -ne 1 ] || [ -s out ] || [ "$(wc -l <err)" -ne 1 ] || [ "$told" = no ]; then fail "the first $length bytes, $form"; fi
    done
    # the last two bytes gone, and the last one
    head -c $((size - 2)) "$whole" >deck
    : >wanted
    echo "F4 record $(wc -l <"$whole"): unknown kind" >wanted-fault
    # shellcheck disable=SC2086
    answers 'all but two bytes' 1 $1
    head -c $((size - 1)) "$whole" >deck
    # shellcheck disable=SC2086
    "$pert" $1 <"$whole" >wanted
    : >wanted-fault
    # shellcheck disable=SC2086
    answers 'all but one byte' 0 $1
}

# the forms that read a plan, as the usage line names them; a length is one that the small deck has
mapfile -t forms < <("$pert" 2>&1 | sed 's/^usage: pert //' | tr '|' '\n' | sed 's/^ *//; s/ *$//; s/ L$/ 6/; s/ P$/ 3660/; /^bench/d; /^arrows/d')
[ "${#forms[@]}" -ge 6 ] || { echo "FAILED decks: no forms in the usage line"; exit 1; }
fronts "$top/tests/acceptance/certificate/deck.csv" "${forms[@]}"
tasks=$top/tests/acceptance/arrows/deck.csv
fronts "$tasks" arrows

# changed NAME COMMAND..: the deck of tasks, changed by the command, becomes an accepted plan in canonical form, or is refused with one line
changed() {
    tried=$((tried + 1))
    "${@:2}" "$many" >deck
    "$pert" arrows <deck >out 2>err
    status=$?
    # shellcheck disable=SC2094 # nothing writes to out
    case $status in
        0) [ ! -s err ] && "$pert" migrate <out 2>err | cmp -s - out && [ ! -s err ] && drawn=$((drawn + 1)) && return ;;
        1) [ ! -s out ] && [ "$(wc -l <err)" -eq 1 ] && grep -q '^F[0-9]* record [0-9]*: ' err && return ;;
    esac
    fail "$1"
}
many=$top/tests/acceptance/arrows-all/deck.csv
drawn=0
lines=$(wc -l <"$many")
for ((k = 1; k <= lines; k++)); do
    changed "line $k left out" sed "${k}d"
    changed "line $k doubled" sed "${k}p"
    changed "line $k behind the next" sed "${k}{h;d};$((k + 1))G"
    for change in 's/,/;/' 's/[0-9]/9&/' 's/[0-9]/x/' 's/,[A-Z0-9.]*/,/' 's/,/,_/' 's/,/,,/' 's/"//' 's/DIG/COVER/' 's/COVER/FRAME/' 's/FRAME/DIG/' 's/1\.1/1.2/' 's/1\.2/1/'; do
        changed "line $k by $change" sed "$k$change"
    done
done
# (a card exchanged with the next, or left out where no other needs it)
status=$drawn
tried=$((tried + 1))
if [ "$drawn" -lt 20 ] || [ "$drawn" -ge $((10 * lines)) ]; then fail 'how many changed decks of tasks are drawn'; fi

# cards NAME FROM TO NORMAL CRASH SLOPE, a line each, as ACT cards without a cost at their normal durations
cards() { awk '{ printf "ACT,%s,%s,%s,1,0,0,0,%s,%s,0,%s,\n", $1, $2, $3, $4, $5, $6 }'; }

# 20,000 activities side by side, each of two units that may be one at a slope of its own.
{
    printf '%s\n' PROJECT,SIDE,S,T,2024-01-01,1,,,2 WBS,1,, EVENT,S, EVENT,T,
    seq 1 20000 | awk '{ print "A" $1, "S", "T", 2, 1, $1 }' | cards
    echo END
} >deck
: >wanted-fault
printf 'accepted SIDE\nevents 2\nactivities 20000\nitems 1\naccounts 0\ncharges 0\ntogos 0\nstatuses 0\n' >wanted
answers '20,000 activities side by side' 0 check
{ printf 'LENGTH 2\nCOST 0\nEVENT S 0\nEVENT T 2\n'; seq 1 20000 | sed 's/.*/ACT A& 2/'; } >wanted
answers '20,000 activities side by side' 0 normal
# the one segment shortens all of them at once: 1 + 2 + .. + 20000
{
    printf 'CERT 1 SIDE 2 20000\nNORMAL\nSTEP A1\nCRASH\nSTEP A1\nSEGMENT 2 1 0 200010000\nEVENT S 0 0\nEVENT T 2 1\n'
    seq 1 20000 | sed 's/.*/ACT A& 2 & 0/'
    printf 'CLOSE\nEND\n'
} >certificate
cp deck side
certified() {
    tried=$((tried + 1))
    (ulimit -t "$limit" && exec "$pert_check" "$1") <certificate >out 2>err
    status=$?
    if [ "$status" -ne 0 ] || [ "$(cat out)" != "certified $2" ] || [ -s err ]; then fail "the certificate of $1"; fi
}
sed -i '1,2s/^CERT 1/CERT 2/' certificate
tried=$((tried + 1))
"$pert_check" side <certificate >out 2>err
status=$?
if [ "$status" -ne 6 ] || [ "$(cat out)" != 'not certified line 1 reason 1' ]; then fail 'a certificate with pieces of a deck without'; fi
sed -i '1s/^CERT 2/CERT 1/' certificate
certified side 1
cp certificate wanted
answers '20,000 activities side by side' 0 certify

# 19,998 in a chain of 10,000 events, two from each to the next. The first six may be shortened, pair by pair at a higher slope.
{
    printf '%s\n' PROJECT,CHAIN,E0,E9999,2024-01-01,1,,,2 WBS,1,,
    seq 0 9999 | sed 's/.*/EVENT,E&,/'
    for twin in A B; do
        seq 0 9998 | awk -v twin=$twin '{ print twin $1, "E" $1, "E" $1 + 1, ($1 < 3 ? 2 : 1), 1, ($1 < 3 ? $1 + 1 : 0) }'
    done | cards
    echo END
} >deck
cp deck chain
{
    printf 'LENGTH 10002\nCOST 0\n'
    seq 0 9999 | awk '{ print "EVENT E" $1, $1 + ($1 < 3 ? $1 : 3) }'
    for twin in A B; do seq 0 9998 | awk -v twin=$twin '{ print "ACT " twin $1, ($1 < 3 ? 2 : 1) }'; done
} >wanted
answers '19,998 activities in a chain' 0 normal
tried=$((tried + 1))
(ulimit -t "$limit" && exec "$pert" certify) <deck >certificate 2>err
status=$?
grep '^SEGMENT ' certificate >out
if [ "$status" -ne 0 ] || [ "$(cat out)" != $'SEGMENT 10002 10001 0 2\nSEGMENT 10001 10000 2 4\nSEGMENT 10000 9999 6 6' ]; then
    fail 'the certificate of 19,998 activities in a chain'
fi
certified chain 3

# A cycle of 4,900 activities after a walk from the start to the end.
{
    printf '%s\n' PROJECT,CYCLE,S,T,2024-01-01,1,, WBS,1,, EVENT,S, EVENT,T,
    seq 1 4900 | sed 's/.*/EVENT,E&,/'
    { echo 'IN S E1 1 1 0'; echo 'OUT E1 T 1 1 0'; seq 1 4900 | awk '{ print "A" $1, "E" $1, "E" $1 % 4900 + 1, 1, 1, 0 }'; } | cards
    echo END
} >deck
: >wanted
echo "F27 record 4907: activities in a cycle: $(seq 1 4900 | sed 's/^/A/' | tr '\n' ' ' | sed 's/ $//')" >wanted-fault
for form in check certify; do answers 'a cycle of 4,900 activities' 1 $form; done

# 4,000 tasks in a chain, with each link twice, and two AFTER cards more, which may close a cycle.
tasks() {
    printf '%s\n' PROJECT,TASKS,S,T,2024-01-01,1,, WBS,1,, WBS,1.1,1,
    seq 1 4000 | sed 's/.*/TASK,A&,1.1,0,0,0,1,1,0,0,/'
    for twin in 1 2; do seq 2 4000 | awk '{ print "AFTER,A" $1 ",A" $1 - 1 }'; done
    printf 'AFTER,A%s\n' "$@"
    echo END
}
tasks 3,A1 4,A1 >deck
{
    printf '%s\n' PROJECT,TASKS,S,T,2024-01-01,1,,,2 ASOF,2024-01-01 WBS,1,, WBS,1.1,1, WBS,_links,1, EVENT,S,
    seq 1 4000 | awk '{ print "EVENT,_b" $1 "," ; print "EVENT,_e" $1 "," }'
    echo EVENT,T,
    seq 1 4000 | awk '{ print "ACT,A" $1 ",_b" $1 ",_e" $1 ",1.1,0,0,0,1,1,0,0," }'
    { seq 2 4000; seq 2 4000; } | awk '{ print "ACT,_a" NR ",_e" $1 - 1 ",_b" $1 ",_links,0,0,0,0,0,0,0," }'
    printf 'ACT,%s,_links,0,0,0,0,0,0,0,\n' _a7999,_e1,_b3 _a8000,_e1,_b4 _s1,S,_b1 _t4000,_e4000,T
    echo END
} >wanted
: >wanted-fault
answers '4,000 tasks in a chain' 0 arrows
tasks 1,A4000 1,A4000 >deck
: >wanted
echo "F38 record 4: tasks in a cycle: $(seq 1 4000 | sed 's/^/A/' | tr '\n' ' ' | sed 's/ $//')" >wanted-fault
answers '4,000 tasks in a circle' 1 arrows

echo "decks: $((tried - failed)) passed, $failed failed"
[ "$failed" -eq 0 ]

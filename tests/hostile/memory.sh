#!/usr/bin/env bash
# Refuses each allocation of the built programs in turn, one per run.
#
#   tests/hostile/memory.sh [FOLDER]     FOLDER: where the programs are (default: as `rt ci` leaves them)
#
# It tries each form of pert, pert_check on what `certify` wrote, and pert_whatif if it is there, on the decks of three and of ten activities; and `arrows` on decks
# of tasks, one of them with a cycle. A run with a refused allocation has status 3 and writes nothing, or ends as with all memory. For `curve`
# and `certify`, as many refusals give status 3 on a curve of one segment as on a curve of two. A line for each command says how many allocations
# there were, and how many refusals gave 3.
# It needs a C compiler ($CC, or cc) and is skipped without one. It takes half a minute and is outside the gate.
set -u
export LC_ALL=C
here=$(cd "$(dirname "$0")" && pwd)
top=$(cd "$here/../.." && pwd)
folder=${1:+$(cd "$1" && pwd)}
pert=${folder:-$top/crates/pert/out}/pert
pert_check=${folder:-$top/crates/pert_check/out}/pert_check
pert_whatif=${folder:-$top/crates/pert_whatif/out}/pert_whatif
for program in "$pert" "$pert_check"; do
    [ -x "$program" ] || { echo "hostile: no program at $program (run 'make' or 'rt ci' first)"; exit 1; }
done
compiler=${CC:-cc}
command -v "$compiler" >/dev/null || { echo "memory: skipped, no C compiler"; exit 0; }
scratch=$(mktemp -d) || exit 1
trap 'rm -rf "$scratch"' EXIT
cd "$scratch" || exit 1
"$compiler" -O2 -shared -fPIC -o refuse.so "$here/refuse.c" || { echo "memory: refuse.c was not compiled"; exit 1; }
failed=0
runs=0
most=10000

# refusing N PROGRAM WORD..: what the program does with `input` if its Nth allocation is refused; `told` is not empty if it was
refusing() {
    REFUSE=$1 LD_PRELOAD=$scratch/refuse.so "${@:2}" <input >out 2>err 9>told
    status=$?
    runs=$((runs + 1))
}

# each NAME PROGRAM WORD..: refuses each allocation in turn; `taken` is how many there are, `threes` how many refusals gave status 3
each() {
    local name=$1 number
    shift
    "$@" <input >wanted 2>wanted-err
    local answer=$?
    taken=0
    threes=0
    for ((number = 1; number <= most; number++)); do
        refusing "$number" "$@"
        [ -s told ] || break
        taken=$number
        if [ "$status" -eq 3 ] && [ ! -s out ] && [ ! -s err ]; then
            threes=$((threes + 1))
        elif [ "$status" -ne "$answer" ] || ! cmp -s out wanted || ! cmp -s err wanted-err; then
            failed=$((failed + 1))
            echo "FAILED $name, allocation $number refused: status $status, $(wc -c <out) bytes, $(head -c 100 err)"
        fi
    done
    # the run after the last refusal met none
    if [ "$status" -ne "$answer" ] || ! cmp -s out wanted || [ "$taken" -eq 0 ]; then
        failed=$((failed + 1))
        echo "FAILED $name, none of $taken allocations refused: status $status"
    fi
    echo "memory: $name: $taken allocations, $threes refusals give status 3"
}

# same NAME PROGRAM WORD..: as many refusals give status 3 on `one` as on `two`, decks with one and with two segments
same() {
    local name=$1 of_one
    shift
    cp one input
    each "$name, one segment" "$@"
    of_one=$threes
    cp two input
    each "$name, two segments" "$@"
    [ "$threes" -eq "$of_one" ] && return
    failed=$((failed + 1))
    echo "FAILED $name: $of_one refusals give status 3 for one segment, $threes for two"
}

# forms LENGTH: the forms that read a plan, as the usage line names them, with this length
forms() { "$pert" 2>&1 | sed 's/^usage: pert //' | tr '|' '\n' | sed "s/^ *//; s/ *\$//; s/ L\$/ $1/; s/ P\$/ 3660/; /^bench/d; /^arrows/d"; }

for of in certificate:6 house:30; do
    deck=${of%:*}
    mapfile -t all < <(forms "${of#*:}")
    [ "${#all[@]}" -ge 6 ] || { echo "FAILED: no forms in the usage line"; exit 1; }
    cp "$top/tests/acceptance/$deck/deck.csv" deck
    project=$(sed -n 's/^PROJECT,\([^,]*\),.*/\1/p' deck)
    for form in "${all[@]}"; do
        cp deck input
        # shellcheck disable=SC2086  # a form may have two words
        each "$form of $project" "$pert" $form
    done
    "$pert" certify <deck >input
    each "pert_check of $project" "$pert_check" deck
    # a session takes all its memory before its first line
    printf 'SLOPE %s 9\nCURVE\nTIMES\nUNDO\n' A SITE >input
    if [ -x "$pert_whatif" ]; then each "pert_whatif of $project" "$pert_whatif" deck; fi
done
: >input
each 'bench 40' "$pert" bench 40
for tasks in arrows arrows-all arrows-cycle; do
    cp "$top/tests/acceptance/$tasks/deck.csv" input
    each "arrows of the case $tasks" "$pert" arrows
done

# a deck of which two lengths are shortened at different prices, and the same with no activity that can be shortened further
cp "$top/tests/acceptance/certificate/deck.csv" two
sed 's/,4,2,10,3,/,4,4,10,3,/; s/,5,3,20,5,/,5,5,20,5,/; s/,7,5,15,2,/,7,7,15,2,/' two >one
for deck in one two; do "$pert" certify <$deck | grep -c '^SEGMENT'; done >segments
[ "$(tr '\n' ' ' <segments)" = '1 2 ' ] || { failed=$((failed + 1)); echo "FAILED: the curves have not one and two segments"; }
for form in curve certify; do same "$form" "$pert" $form; done

echo "$runs runs with an allocation refused, $failed not answered as they must be"
[ "$failed" -eq 0 ]

#!/usr/bin/env bash
# Counts the allocations of the built program (valgrind): `certify` and `curve` allocate as often for a curve of one segment as for a curve
# of two, on decks that differ only in the crash duration of one activity.
#
#     tests/speed/allocations.sh [PROGRAM]        (default: as `rt ci` leaves it)
here=$(cd "$(dirname "$0")" && pwd)
pert=${1:-$here/../../crates/pert/out/pert}
two=$here/../../examples/shed.csv
command -v valgrind > /dev/null || { echo "allocations: skipped, no valgrind"; exit 0; }
[ -x "$pert" ] || { echo "allocations: no program $pert"; exit 1; }
one=$(mktemp) && trap 'rm -f "$one"' EXIT
sed 's/^ACT,C,S,T,W1.1,7,7,7,7,5,/ACT,C,S,T,W1.1,7,7,7,7,7,/' "$two" > "$one"

segments() { "$pert" certify < "$1" | grep -c '^SEGMENT'; }
taken() { valgrind "$pert" "$1" < "$2" 2>&1 > /dev/null | sed -n 's/.*total heap usage: \([0-9,]*\) allocs.*/\1/p'; }

failed=0
[ "$(segments "$one") $(segments "$two")" = "1 2" ] || { echo "allocations: the curves are not of one and of two segments"; failed=1; }
for form in certify curve; do
    of_one=$(taken $form "$one") of_two=$(taken $form "$two")
    if [ -n "$of_one" ] && [ "$of_one" = "$of_two" ]; then
        echo "allocations: $form takes memory $of_one times for one segment and for two"
    else
        echo "allocations: $form takes memory $of_one times for one segment, $of_two for two"
        failed=1
    fi
done
exit $failed

#!/usr/bin/env bash
# Runs what is outside the gate, for as long as you say: each refused allocation once, the certificates of 10,000 decks and 100,000 that were
# changed in structure, and 10,000 decks with status, whose work that is left has to be a deck too; decks with as many cards of each kind as there
# may be, one less and one more, and how the work grows with them; 20 runs of each command with its input in pieces and 20 with stops, and 400
# programs, 20 at a time; then round after round of generated projects, sessions and tampered certificates, each round with a seed of its own; and
# at the end the must-fail edits of tests/edits/, which take hours more if nothing was kept. It stops at the first finding. A check whose program
# is missing says so and is skipped.
#
#   tests/soak.sh MINUTES [SEED [FOLDER]]
#
# SEED determines everything that is generated (default: the time), and is printed: the same seed gives the same rounds. FOLDER is where the
# programs are (default: as `rt ci` leaves them).
set -u
here=$(cd "$(dirname "$0")" && pwd)
minutes=${1:?how many minutes}
seed=${2:-$(date +%s)}
folder=${3:-}
ends=$((SECONDS + 60 * minutes))
rounds=0
echo "soak: $minutes minutes from seed $seed"

# found WHAT: says where to look, and ends
found() {
    echo "soak: FOUND by $1, in the round with seed $((seed + rounds))"
    exit 1
}

"$here/hostile/memory.sh" ${folder:+"$folder"} || found tests/hostile/memory.sh
others=()
if command -v node >/dev/null; then others+=(--node); else echo "soak: no node, so check.js is left out"; fi
if [ -x "$here/../bin/pert-recheck" ]; then others+=(--coq); else echo "soak: no bin/pert-recheck, so it is left out"; fi
"$here/hostile/second.py" "${others[@]}" --decks 10000 "$folder" "$seed" 60 100000 || found tests/hostile/second.py
"$here/hostile/limits.py" "$folder" || found tests/hostile/limits.py
"$here/hostile/growth.py" "$folder" || found tests/hostile/growth.py
"$here/hostile/pieces.py" "$folder" "$seed" 20 || found tests/hostile/pieces.py
programs=$(cd "${folder:-$here/../crates/pert/out}" && pwd) || exit 2
(cd "$here/../companion" && PATH="$programs:$PATH" COMPANION_RANDOM=1 REMAINING_EXAMPLES=5000 /usr/bin/python3 -m pytest -q -p no:cacheprovider \
    tests/test_remaining_properties.py -k accepted) || found companion/tests/test_remaining_properties.py
echo "soak: 1,000 random plans, carried over, and written and read in each format; 200 exported at three lengths"
(cd "$here/../companion" && PATH="$programs:$PATH" COMPANION_RANDOM=1 CARRY_EXAMPLES=1000 LENGTH_EXAMPLES=200 /usr/bin/python3 -m pytest -q \
    -p no:cacheprovider tests/test_carry.py tests/test_list_round_trip.py tests/readers/test_round_trip.py tests/writers/test_mspdi_writer.py) ||
    found companion/tests
while [ $SECONDS -lt $ends ]; do
    "$here/differential/run.py" 300 $((seed + rounds)) ${folder:+--programs "$folder"} || found tests/differential/run.py
    "$here/differential/reports.py" 200 $((seed + rounds)) ${folder:+--programs "$folder"} || found tests/differential/reports.py
    "$here/differential/tasks.py" 200 $((seed + rounds)) ${folder:+--programs "$folder"} || found tests/differential/tasks.py
    "$here/differential/sessions.py" 2000 $((seed + rounds)) ${folder:+--programs "$folder"} || found tests/differential/sessions.py
    "$here/hostile/sessions.py" "$folder" $((seed + rounds)) || found tests/hostile/sessions.py
    "$here/hostile/second.py" "${others[@]}" "$folder" $((seed + rounds)) 20 500 || found tests/hostile/second.py
    rounds=$((rounds + 1))
done
"$here/edits/run.py" || found tests/edits/run.py
echo "soak: $rounds rounds from seed $seed, nothing found"

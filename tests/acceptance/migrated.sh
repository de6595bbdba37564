# shellcheck shell=bash disable=SC2154,SC2034 # what is used here and not set is set by `run.sh`
# What `pert migrate` writes of every accepted deck of the examples and of the cases; read by `run.sh`, which has `pert`, `scratch`,
# `want` and `judge`. It has version 2 and tells as-of; every form answers it as it answers the deck, and the checker certifies the
# same certificate; and migrated again it is the same bytes.

# told DECK WORD..: what pert answers to a deck: both outputs and the status
told() {
    local deck=$1
    shift
    "$pert" "$@" <"$deck" 2>"$scratch/told-err"
    echo "status $?"
    [ ! -s "$scratch/told-err" ] || cat "$scratch/told-err"
}

# migrated NAME DECK: compares what every form says of a deck and of what `migrate` writes of it
migrated() {
    local name=$1 deck=$2 form long short
    local new=$scratch/new.csv
    "$pert" migrate <"$deck" >"$new" 2>"$scratch/stderr"
    echo $? >"$scratch/status"
    want 0 '' ''
    "$pert" migrate <"$new" >"$scratch/stdout" 2>>"$scratch/stderr"
    cp "$new" "$scratch/want/stdout"
    judge "$name, migrated twice"
    # The first line is the PROJECT card of version 2, the second the ASOF card; the last is END.
    want 0 "PROJECT 2\nASOF\nEND\n" ''
    { sed -n '1s/^\(PROJECT\),.*,\(2\)$/\1 \2/p; 2s/^\(ASOF\),[-0-9]*$/\1/p' "$new"; tail -n 1 "$new"; } >"$scratch/stdout"
    judge "$name, what it begins and ends with"
    long=$("$pert" curve <"$deck" | sed -n '1s/ .*//p')
    short=$("$pert" curve <"$deck" | sed -n '$s/ .*//p')
    for form in "${forms[@]}"; do
        # behind a form's name a length, at both ends of the range and outside it, or a number of days
        case $form in *' L') set -- "$long" "$short" "$((long + 1))" ;; *' P') set -- 1 7 3660 ;; *) set -- '' ;; esac
        for number; do
            want 0 '' ''
            # shellcheck disable=SC2086  # no number is no word
            told "$deck" "${form%% *}" $number >"$scratch/want/stdout"
            # shellcheck disable=SC2086
            told "$new" "${form%% *}" $number >"$scratch/stdout"
            : >"$scratch/stderr"
            echo 0 >"$scratch/status"
            judge "$name, migrated, ${form%% *} $number"
        done
    done
    # shellcheck disable=SC2094
    want 0 "$("$pert" certify <"$deck" | "$pert_check" "$deck")\n" ''
    # shellcheck disable=SC2094 # neither writes the deck
    "$pert" certify <"$deck" | "$pert_check" "$new" >"$scratch/stdout" 2>"$scratch/stderr"
    echo $? >"$scratch/status"
    judge "$name, migrated, its certificate checked"
}

mapfile -t forms < <(forms_of_plans)
accepted=0
for deck in "$top"/examples/*.csv "$here"/*/deck.csv; do
    "$pert" check <"$deck" >/dev/null 2>&1 || continue
    accepted=$((accepted + 1))
    mine || continue
    name=${deck#"$top/"}
    migrated "${name%/deck.csv}" "$deck"
done

[ "$accepted" -ge 20 ] || { echo "FAILED acceptance: only $accepted accepted decks were migrated"; failed=$((failed + 1)); }
[ "$share" -eq 0 ] || return 0

# The deck at all limits of version 2.
if command -v python3 >/dev/null; then
    python3 "$top/tests/speed/large-deck.py" limits >"$scratch/limits.csv"
    "$pert" migrate <"$scratch/limits.csv" >"$scratch/new.csv"
    want 0 '' ''
    cp "$scratch/new.csv" "$scratch/want/stdout"
    "$pert" migrate <"$scratch/new.csv" >"$scratch/stdout" 2>"$scratch/stderr"
    echo $? >"$scratch/status"
    judge 'the largest deck, migrated twice'
    for form in check times summary value; do
        want 0 '' ''
        "$pert" $form <"$scratch/limits.csv" >"$scratch/want/stdout"
        "$pert" $form <"$scratch/new.csv" >"$scratch/stdout" 2>"$scratch/stderr"
        echo $? >"$scratch/status"
        judge "the largest deck, migrated, $form"
    done
    # Its lines are those of the deck: nothing was lost, and nothing came.
    want 0 '' ''
    sort "$scratch/limits.csv" >"$scratch/want/stdout"
    sort "$scratch/new.csv" >"$scratch/stdout"
    : >"$scratch/stderr"
    judge 'the lines of the largest deck, migrated'
else
    skipped=$((skipped + 1))
fi

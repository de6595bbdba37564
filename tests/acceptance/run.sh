#!/usr/bin/env bash
# Runs the built programs on real files and pipes, and compares what they write and their status.
#
#   tests/acceptance/run.sh [FOLDER] [CASE..]     FOLDER: the programs (default: as `rt ci` leaves them); CASE: a case, or one of the parts
#
# A folder below this one is a case: `args` (one word per line), `deck.csv` (standard input), `stdout`, `stderr` and `status` are what is
# given and what is wanted. A missing file means an empty one, or status 0. `deck` names another case, whose deck is given. If `program`
# names another program than pert, it runs in the folder, and `cert.txt` or `lines.txt` is its standard input. `same` names another case,
# whose answer is wanted: for this deck, or if there is `mend`, for what that command makes of it. docs/deck.md shows each `mend`; one that
# needs a missing tool is skipped.
#
# The parts have many cases in one file. `faults`: the first fault of many small decks, one per line, which every form reports. `edges`: the
# cases that no file can state (folders, full devices, closed streams, odd words, slow pipes, large decks). `certificate-edges`: those of
# pert_check. `certify-edges`: pert_check reads what pert wrote. `migrated`: for each accepted deck here and in examples/, what `migrate`
# writes gets the same answers as the deck. `small-deck`: the deck of three activities with one change each. `session-edges`: the cases of
# pert_whatif. `task-edges`: the cases of decks of tasks, with their faults in `task-faults`. Cases and parts run side by side, TEST_JOBS at a
# time (default: the number of processors).
set -u
here=$(cd "$(dirname "$0")" && pwd)
top=$(cd "$here/../.." && pwd)
case ${1:-} in -h | --help) sed -n '2,/^set/s/^# \{0,1\}//p' "$0" && exit 0 ;; esac
parts="faults small-deck edges certificate-edges certify-edges migrated session-edges task-edges"
folder=
if [ $# -gt 0 ] && [ -d "$1" ] && [ ! -d "$here/$1" ]; then
    folder=$(cd "$1" && pwd)
    shift
fi
chosen=()
wanted_parts=
for name; do
    case " $parts " in *" $name "*) wanted_parts="$wanted_parts $name" && continue ;; esac
    [ -d "$here/$name" ] || { echo "acceptance: there is no case and no part $name; the parts are $parts"; exit 2; }
    chosen+=("$here/$name/")
done
if [ $# -eq 0 ]; then
    chosen=("$here"/*/)
    wanted_parts=$parts
fi

# program NAME: sets `program_at` to where the program of this name is
program_at=
program() { if [ -n "$folder" ]; then program_at=$folder/$1; else program_at=$top/crates/$1/out/$1; fi; }

# the programs; a case names the one that it runs
# shellcheck disable=SC2034 # parts and cases use pert_whatif
pert='' pert_check='' pert_whatif=''
for name in pert_check pert_whatif pert; do
    program $name
    [ -x "$program_at" ] || { echo "acceptance: no program at $program_at (run 'make' or 'rt ci' first)"; exit 1; }
    declare "$name=$program_at"
done
room=$(mktemp -d) || exit 1
trap 'rm -rf "$room"' EXIT
passed=0
failed=0
skipped=0
alone=
# shellcheck disable=SC2034 # several parts use it
shed=$top/examples/shed.csv
# shellcheck disable=SC2034
schedule='LENGTH 9\nCOST 45\nEVENT S 0\nEVENT M 4\nEVENT T 9\nACT A 4\nACT B 5\nACT C 7\n'

# same FILE FILE: whether they are equal. Most are empty, and starting a process takes longer than a program's answer.
same() { if [ -s "$1" ] && [ -s "$2" ]; then cmp -s "$1" "$2"; else [ ! -s "$1" ] && [ ! -s "$2" ]; fi; }

# judge NAME: compares $scratch/{stdout,stderr,status} with the wanted files in $scratch/want
judge() {
    local part
    for part in status stderr stdout; do
        if ! same "$scratch/want/$part" "$scratch/$part"; then
            echo "FAILED acceptance: $1: $part"
            diff -u --label wanted --label got "$scratch/want/$part" "$scratch/$part" | head -n 12 | cut -c 1-200
            echo "alone: tests/acceptance/run.sh $alone"
            failed=$((failed + 1))
            return
        fi
    done
    passed=$((passed + 1))
}

# want STATUS STDOUT STDERR: texts with \n
want() {
    echo "$1" >"$scratch/want/status"
    printf '%b' "$2" >"$scratch/want/stdout"
    printf '%b' "$3" >"$scratch/want/stderr"
}

# want_files FOLDER: the texts of a case
want_files() {
    local part
    for part in stdout stderr status; do
        if [ -s "$1/$part" ]; then cp "$1/$part" "$scratch/want/$part"; else : >"$scratch/want/$part"; fi
    done
    [ -s "$1/status" ] || echo 0 >"$scratch/want/status"
}

# first FILE: sets `line` to the first line of a small file
first() { IFS= read -r line <"$1" || [ -n "$line" ]; }

# mine: whether the next case of a part is for this share of it
turn=0
mine() { turn=$((turn + 1)) && [ $((turn % shares)) -eq "$share" ]; }

# what several parts use
events() { seq 0 $(($1 - 1)) | sed 's/.*/EVENT,&,/'; }
# activity_cards: of lines `code,from,to`
activity_cards() { sed 's/.*/ACT,&,1,0,0,0,1,0,0,0,/'; }

# forms_of_plans: the forms that read a plan, a line each, as the usage line names them
forms_of_plans() { "$pert" 2>&1 | sed 's/^usage: pert //' | tr '|' '\n' | sed 's/^ *//; s/ *$//; /^bench/d; /^arrows/d'; }

# passes NAME DECK: pert's certificate of the deck is certified, with as many segments as it has
passes() {
    local count
    "$pert" certify <"$2" >"$scratch/certificate" 2>"$scratch/stderr" || echo "certify ended with $?" >>"$scratch/stderr"
    count=$(grep -c '^SEGMENT ' "$scratch/certificate")
    want 0 "certified $count\n" ''
    # shellcheck disable=SC2094 # both read the deck, and neither writes it
    "$pert" certify <"$2" | "$pert_check" "$2" >"$scratch/stdout" 2>>"$scratch/stderr"
    echo $? >"$scratch/status"
    judge "$1"
}

# one_case FOLDER
one_case() {
    local case=$1 like=$1 args=() deck=$1/deck.csv input run=$pert line tool n
    alone=${case##*/}
    [ ! -f "$case/args" ] || mapfile -t args <"$case/args"
    [ ! -f "$case/same" ] || { first "$case/same" && like=$here/$line; }
    if [ -f "$case/mend" ]; then want_files "$case"; else want_files "$like"; fi
    [ ! -f "$case/deck" ] || { first "$case/deck" && deck=$here/$line/deck.csv; }
    input=$deck
    if [ -f "$case/program" ]; then
        for n in "${!args[@]}"; do [ "${args[n]}" != deck.csv ] || args[n]=$deck; done
        first "$case/program"
        run=${!line}
        input=$case/cert.txt
        [ ! -f "$case/lines.txt" ] || input=$case/lines.txt
    fi
    [ -f "$input" ] || input=/dev/null
    (cd "$case" && exec "$run" "${args[@]}" <"$input" >"$scratch/stdout" 2>"$scratch/stderr")
    echo $? >"$scratch/status"
    judge "case $alone"
    [ -f "$case/mend" ] || return
    if ! grep -qF -- "$(cat "$case/mend")" "$top/docs/deck.md"; then
        echo "FAILED acceptance: case $alone: docs/deck.md does not show its mend"
        failed=$((failed + 1))
    fi
    for tool in python3 iconv; do
        if grep -qw -- "$tool" "$case/mend" && ! command -v "$tool" >/dev/null; then
            skipped=$((skipped + 1))
            return
        fi
    done
    want_files "$like"
    bash "$case/mend" <"$deck" >"$scratch/deck" 2>"$scratch/mending"
    "$run" "${args[@]}" <"$scratch/deck" >"$scratch/stdout" 2>"$scratch/stderr"
    echo $? >"$scratch/status"
    cat "$scratch/mending" >>"$scratch/stderr"
    judge "case $alone, mended"
}

# the first faults, a line each
faults() {
    local line_number=0 records line form forms
    mapfile -t forms < <(forms_of_plans | sed 's/ L$/ 0/; s/ P$/ 7/')
    [ "${#forms[@]}" -ge 6 ] || { echo "FAILED acceptance: no forms in the usage line" && failed=$((failed + 1)); }
    while IFS='|' read -r records line; do
        line_number=$((line_number + 1))
        case $records in '#'*) continue ;; esac
        mine || continue
        printf '%b' "${records//\//\\n}" | LC_ALL=C sed -E '
            s/^P$/PROJECT,E,S,T,2024-01-01,7,1000000,/
            s/^([^,:]*):([^,:]*)$/WBS,\1,\2,/
            s/^([^,:]*):([^,:]*):([^,:]*)$/ACT,\1,\2,\3,1,0,0,0,0,0,0,0,/' >"$scratch/deck"
        case $line in accepted) want 0 '' '' ;; *) want 1 '' "$line\n" ;; esac
        for form in "${forms[@]}"; do
            # An accepted deck need not have the length 0.
            case $line,$form in accepted,*0) continue ;; esac
            # shellcheck disable=SC2086 # a form may have two words
            "$pert" $form <"$scratch/deck" >"$scratch/stdout" 2>"$scratch/stderr"
            echo $? >"$scratch/status"
            [ "$line" != accepted ] || : >"$scratch/stdout"
            judge "line $line_number of faults, $form"
        done
    done <"$here/faults"
}

# one_share PART SHARE SHARES: runs a part, or this share of it, in a folder of its own
one_share() {
    share=$2
    shares=$3
    scratch=$room/$1.$2
    alone=$1
    mkdir -p "$scratch/want"
    {
        case $1 in
        cases) for case in "${chosen[@]}"; do ! mine || one_case "${case%/}"; done ;;
        faults) faults ;;
        *)
            # shellcheck source=/dev/null # each part is checked as a file of its own
            . "$here/$1.sh"
            ;;
        esac
        echo "$passed $failed $skipped" >"$scratch/counts"
    } >"$scratch/said" 2>&1
}

# How many shares each part has: what takes longest begins first.
jobs=${TEST_JOBS:-$(nproc 2>/dev/null || echo 2)}
work=()
for part in migrated session-edges task-edges edges small-deck faults cases certify-edges certificate-edges; do
    case " $wanted_parts cases " in *" $part "*) ;; *) continue ;; esac
    [ $part != cases ] || [ ${#chosen[@]} -gt 0 ] || continue
    case $part in migrated | faults | cases | certify-edges) shares=$jobs ;; *) shares=1 ;; esac
    for ((share = 0; share < shares; share++)); do work+=("$part $share $shares"); done
done
running=0
for it in "${work[@]}"; do
    if [ "$running" -ge "$jobs" ]; then wait -n && running=$((running - 1)) || running=$((running - 1)); fi
    # shellcheck disable=SC2086  # three words
    one_share $it &
    running=$((running + 1))
done
wait
for it in "${work[@]}"; do
    read -r part share _ <<<"$it"
    cat "$room/$part.$share/said"
    if read -r p f s 2>/dev/null <"$room/$part.$share/counts"; then
        passed=$((passed + p)) failed=$((failed + f)) skipped=$((skipped + s))
    else
        echo "FAILED acceptance: $part did not come to its end"
        failed=$((failed + 1))
    fi
done
echo "acceptance: $passed passed, $failed failed, $skipped skipped"
[ "$failed" -eq 0 ]

#!/usr/bin/env bash
# Gives the built pert_check tampered certificates. None of them may be certified.
#
#   tests/hostile/certificates.sh [PROGRAM] [TABLE]     PROGRAM: pert_check (default: as `rt ci` leaves it); TABLE: `changes` or `changes-again`,
#                                                    to try the changes of this table only
#
# Of the right certificate of the three-activity deck it tries a table of changes (`changes`), each prefix, each byte replaced by each other
# byte, each byte left out or doubled, a byte inserted at each place, and inputs that never end. Of a certificate with four segments, in which many
# rows are repeated, it tries a table of changes in the later segments (`changes-again`).
set -u
export LC_ALL=C
here=$(cd "$(dirname "$0")" && pwd)
check=$here/../../crates/pert_check/out/pert_check
if [ $# -gt 0 ] && [ -x "$1" ]; then
    check=$1
    shift
fi
table=${1:-}
case $table in '' | changes | changes-again) ;; *) echo "certificates: there is no table $table; the tables are changes and changes-again"; exit 2 ;; esac
[ -x "$check" ] || { echo "hostile: no program at $check (run 'make' or 'rt ci' first)"; exit 1; }
deck=$here/../acceptance/certificate/deck.csv
IFS= read -r -d '' right <"$here/../acceptance/certificate/cert.txt"
failed=0
tried=0

# refused WHAT ANSWER: the program must have ended with 6 and answered so; an empty answer means any refusal
refused() {
    tried=$((tried + 1))
    if [ "$status" -ne 6 ] || { [ -n "$2" ] && [ "$answer" != "$2" ]; }; then
        echo "FAILED certificates: $1: status $status, $answer; wanted 6, ${2:-any refusal}"
        failed=$((failed + 1))
    fi
}

# try TEXT: gives the text to the program
try() {
    answer=$("$check" "$deck" < <(printf '%s' "$1"))
    status=$?
}

try "$right"
if [ "$status" -ne 0 ] || [ "$answer" != 'certified 2' ]; then
    echo "FAILED the right certificate: status $status, $answer"
    exit 1
fi

# changed CERTIFICATE DECK TABLE: tries a table of changes
changed() {
    while IFS='|' read -r change point; do
        case $change in '#'*) continue ;; esac
        answer=$(sed "${change//;/$'\n'}" "$1" | "$check" "$2")
        status=$?
        refused "$change" "not certified line ${point% *} reason ${point#* }"
    done <"$3"
}
[ "$table" = changes-again ] || changed "$here/../acceptance/certificate/cert.txt" "$deck" "$here/changes"
again=$here/../acceptance/certify-rows-again
answer=$("$check" "$again/deck.csv" <"$again/stdout")
[ "$answer" = 'certified 4' ] || { echo "FAILED the certificate whose rows come again: $answer"; failed=$((failed + 1)); }
[ "$table" = changes ] || changed "$again/stdout" "$again/deck.csv" "$here/changes-again"
# ends: the last line and the status
ends() {
    echo "certificates: $((tried - failed)) passed, $failed failed"
    [ "$failed" -eq 0 ]
}
if [ -n "$table" ]; then
    ends
    exit
fi

# each front of it lacks the line in which it ends
length=${#right}
for ((i = 0; i < length; i++)); do
    front=${right:0:i}
    ends=${front//[!$'\n']/}
    try "$front"
    refused "the first $i bytes" "not certified line $((${#ends} + 1)) reason 0"
done

# one byte changed, left out, doubled or put in
others=(0 1 2 3 4 5 6 7 8 9 A B C S T M E N ' ' $'\n' $'\t' $'\r' - + . x $'\xff')
for ((i = 0; i < length; i++)); do
    front=${right:0:i}
    byte=${right:i:1}
    rest=${right:i + 1}
    for other in "${others[@]}"; do
        [ "$other" != "$byte" ] || continue
        try "$front$other$rest"
        refused "byte $i changed from ${byte@Q} to ${other@Q}" ''
    done
    try "$front$rest"
    refused "byte $i (${byte@Q}) left out" ''
    for other in "$byte" 0 ' ' $'\n'; do
        try "$front$other$byte$rest"
        refused "${other@Q} put in before byte $i (${byte@Q})" ''
    done
done
for other in 0 ' ' $'\n' x; do
    try "$right$other"
    refused "${other@Q} put in at the end" 'not certified line 25 reason 0'
done

# inputs that never end, and a certificate that comes a byte at a time
while IFS='|' read -r source point; do
    answer=$(eval "$source" | "$check" "$deck")
    status=$?
    refused "$source" "not certified line ${point% *} reason ${point#* }"
done <<'SOURCES'
cat /dev/zero|1 0
yes ''|1 0
yes 'STEP A'|1 0
{ printf '%s' "$right"; yes; }|25 0
{ printf 'CERT 1 E1 3 3\nNORMAL\n'; yes 'STEP A'; }|6 0
SOURCES
answer=$(for ((i = 0; i < length; i++)); do printf '%s' "${right:i:1}"; done | "$check" "$deck")
[ "$answer" = 'certified 2' ] || { echo "FAILED a byte at a time: $answer"; failed=$((failed + 1)); }

ends

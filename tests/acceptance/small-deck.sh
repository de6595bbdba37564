# shellcheck shell=bash disable=SC2154,SC2034 # what is used here and not set is set by `run.sh`
# The deck of three activities (`certificate/deck.csv`) with one change each; read by `run.sh`, which has all functions and names used here.

small=$here/certificate/deck.csv

# Each row: what `sed` changes, the form, the status, and the lines that are wanted (on the error output if the status is not 0).
while IFS='|' read -r change form status lines; do
    case $change in '#'*) continue ;; esac
    sed -E "${change//;/$'\n'}" "$small" >"$scratch/deck"
    if [ "$status" -eq 0 ]; then want 0 "${lines//\//\\n}\n" ''; else want "$status" '' "$lines\n"; fi
    # shellcheck disable=SC2086  # the words of a form
    "$pert" $form <"$scratch/deck" >"$scratch/stdout" 2>"$scratch/stderr"
    echo $? >"$scratch/status"
    judge "small deck, $change, $form"
done <<'ROWS'
# numbers and dates
/^ACT,B/s/,5,Cover/,9999999999999,Cover/|check|1|F8 record 9: field 12 is over its limit
/^ACT,B/s/,5,Cover/,18446744073709551616,Cover/|check|1|F7 record 9: field 12 has a wrong shape
1s/2024-01-01/2024-02-30/|check|1|F7 record 1: field 5 has a wrong shape
# the ninth field of PROJECT is its version
1s/$/,3/|check|1|F8 record 1: field 9 is over its limit
1s/$/,2/|curve|0|9 45 3/7 51 7/5 65 -
1s/$/,1/|curve|0|9 45 3/7 51 7/5 65 -
# a piece of the cost of A as the last card
$s/^/PIECE,A,1,6\n/|curve|0|9 45 3/8 48 5/7 53 7/6 60 8/5 68 -
$s/^/PIECE,A,2,6\n/|curve|1|F35 record 13: pieces of A leave nothing to its first slope
$s/^/PIECE,A,1,3\n/|curve|1|F34 record 13: slope of a piece of A does not rise
# slopes of 0 make no breakpoint
/^ACT/s/,[0-9]+,([A-Z][a-z]+)$/,0,\1/|curve|0|9 45 0/5 45 -
# a second code, a crash duration above the normal one, estimates out of order, and a budget that does not fit
/^ACT,A/s/.*/&\n&/|check|1|F9 record 9: code A is repeated
/^ACT,A/s/,4,2,10,/,4,5,10,/|check|1|F19 record 8: crash above normal
/^ACT,A/s/,3,4,5,/,5,4,3,/|check|1|F18 record 8: estimates out of order
s/^ACCT,X1,1.1,25/ACCT,X1,1.1,24/|check|1|F29 record 3: item 1.1 has budgets 24 and costs 25
# two faults: the shape of a field comes before a reference
/^ACT,A/s/,S,M,/,S,Q,/;/^ACT,B/s/,20,5,/,2x,5,/|check|1|F7 record 9: field 11 has a wrong shape
/^ACT,A/s/,S,M,/,S,Q,/|check|1|F13 record 8: unknown event Q
ROWS

# 16 more items, each below the one before.
want 1 '' 'F23 record 28: item Z16 at level 17\n'
{
    sed '$d' "$small"
    echo WBS,Z1,1,
    paste -d, <(seq -f 'WBS,Z%.0f' 2 16) <(seq -f 'Z%.0f,' 1 15)
    echo END
} | "$pert" check >"$scratch/stdout" 2>"$scratch/stderr"
echo $? >"$scratch/status"
judge 'small deck, 16 more items'

# Without its last two bytes the last card is of no known kind.
want 1 '' 'F4 record 13: unknown kind\n'
head -c -2 "$small" | "$pert" check >"$scratch/stdout" 2>"$scratch/stderr"
echo $? >"$scratch/status"
judge 'small deck, the last two bytes removed'

# Records filled up with empty fields, CRLF line ends, a byte order mark and a record of commas: every form answers as without them.
forms_of_plans | while read -r form; do
    case $form in *' L') set -- 9 6 5 10 ;; *' P') set -- 1 7 3660 ;; *) set -- '' ;; esac
    for number; do echo "${form%% *} $number"; done
done >"$scratch/asked"
while read -r words; do
    # shellcheck disable=SC2086  # the words of a form
    "$pert" $words <"$small" >"$scratch/want/stdout" 2>"$scratch/want/stderr"
    echo $? >"$scratch/want/status"
    # shellcheck disable=SC2086
    "$pert" $words <"$here/padded-check/deck.csv" >"$scratch/stdout" 2>"$scratch/stderr"
    echo $? >"$scratch/status"
    judge "small deck, padded, $words"
done <"$scratch/asked"

# A certificate with pieces: the flows of A are tested at each piece, there is one for each, and the version is 2.
sed '$s/^/PIECE,A,1,6\n/' "$small" >"$scratch/pieces.csv"
"$pert" certify <"$scratch/pieces.csv" >"$scratch/pieces.cert"
while IFS='|' read -r change point; do
    want 6 "not certified line ${point% *} reason ${point#* }\n" ''
    sed "$change" "$scratch/pieces.cert" | "$pert_check" "$scratch/pieces.csv" >"$scratch/stdout" 2>"$scratch/stderr"
    echo $? >"$scratch/status"
    judge "small deck, a certificate with pieces, $change"
done <<'ROWS'
12s/.*/ACT A 4 2 1 0/|12 11
12s/.*/ACT A 4 3 0/|12 4
1s/.*/CERT 1 E1 3 3/|1 1
ROWS
want 0 'certified 4\n' ''
"$pert_check" "$scratch/pieces.csv" <"$scratch/pieces.cert" >"$scratch/stdout" 2>"$scratch/stderr"
echo $? >"$scratch/status"
judge 'small deck, a certificate with pieces'

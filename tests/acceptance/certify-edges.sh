# shellcheck shell=bash disable=SC2154,SC2034 # what is used here and not set is set by `run.sh`
# Certificates that pert writes and pert_check reads, through a pipe; read by `run.sh`, which has `pert`, `program`, `scratch`,
# `want`, `judge`, `passes`, `mine` and `events`.

# Each accepted deck of a case has a certificate that passes.
for deck in "$shed" "$here"/*/deck.csv; do
    mine || continue
    "$pert" check <"$deck" >/dev/null 2>&1 || continue
    passes "the certificate of $(basename "$(dirname "$deck")")" "$deck"
done

# What follows is for one share.
[ "$share" -eq 0 ] || return 0

# Where the second unit saved of A costs 6, the first segment is shorter, and A has a flow for each piece.
want 0 "$(printf '%s\\n' 'CERT 2 E1 3 3' NORMAL 'STEP A' 'STEP B' CRASH 'STEP A' 'STEP B' 'SEGMENT 9 8 45 3' 'EVENT S 0 0' \
    'EVENT M 4 1' 'EVENT T 9 1' 'ACT A 4 3 0 0' 'ACT B 5 3 0' 'ACT C 7 0 0' CLOSE)" ''
"$pert" certify <"$here/pieces-normal/deck.csv" 2>"$scratch/stderr" | head -n 15 >"$scratch/stdout"
echo 0 >"$scratch/status"
judge 'the first lines of a certificate with pieces'

# Its segments are those of the curve: the lengths and costs at their upper ends, and their slopes.
want 0 'SEGMENT 9 8 45 3\nSEGMENT 8 7 48 5\nSEGMENT 7 6 53 7\nSEGMENT 6 5 60 8\n' ''
"$pert" certify <"$here/pieces-normal/deck.csv" 2>"$scratch/stderr" | grep '^SEGMENT ' >"$scratch/stdout"
echo 0 >"$scratch/status"
judge 'the segments of a certificate with pieces'

# So are those of the house.
want 0 'SEGMENT 35 34 12600 100\nSEGMENT 34 32 12700 110\nSEGMENT 32 31 12920 120\nSEGMENT 31 28 13040 150\nSEGMENT 28 27 13490 200\n' ''
"$pert" certify <"$here/house/deck.csv" 2>"$scratch/stderr" | grep '^SEGMENT ' >"$scratch/stdout"
echo 0 >"$scratch/status"
judge 'the segments of the house'

# A row of 200 activities, each of which can be shortened by a unit at a slope of its own, has as many segments.
{
    printf '%s\n' PROJECT,R,0,200,2024-01-01,1,, WBS,1,,
    events 201
    seq 0 199 | while read -r a; do echo "ACT,A$a,$a,$((a + 1)),1,0,0,0,2,1,0,$((a + 1)),"; done
    echo END
} >"$scratch/deck"
passes 'the certificate of a row of 200 activities' "$scratch/deck"
want 0 '200\n' ''
grep -c '^SEGMENT ' "$scratch/certificate" >"$scratch/stdout"
: >"$scratch/stderr"
echo 0 >"$scratch/status"
judge 'the segments of a row of 200 activities'

# A reader that goes away makes a write fault.
want 5 '' ''
(
    trap '' PIPE
    "$pert" certify <"$scratch/deck" 2>"$scratch/stderr"
    echo $? >"$scratch/status"
) | head -n 1 >/dev/null
: >"$scratch/stdout"
judge 'a reader that goes away'

# shellcheck shell=bash disable=SC2154,SC2034,SC2030,SC2031 # what is used here and not set is set by `run.sh`; `$1` is not changed in any subshell
# The cases that no file can state; read by `run.sh`, which has all functions and names used here.

# A folder as standard input can't be read.
want 4 '' ''
"$pert" normal <"$scratch" >"$scratch/stdout" 2>"$scratch/stderr"
echo $? >"$scratch/status"
judge 'input is a folder'

# The benchmark has a deck of its own, and reads nothing.
want 0 "$(sed 's/$/\\n/' "$here/bench-4/stdout" | tr -d '\n')" ''
"$pert" bench 4 <"$scratch" >"$scratch/stdout" 2>"$scratch/stderr"
echo $? >"$scratch/status"
judge 'the benchmark with a folder as input'

# The benchmark's figures do not depend on the run.
"$pert" bench 400 >"$scratch/want/stdout" 2>"$scratch/want/stderr"
echo $? >"$scratch/want/status"
"$pert" bench 400 >"$scratch/stdout" 2>"$scratch/stderr"
echo $? >"$scratch/status"
judge 'the benchmark of 400 activities, twice'
want 0 'BENCH 400\nNORMAL 3069 22170\nCRASH 1898 31246\nBREAKS 25\nSUM 29299862\n' ''
judge 'the benchmark of 400 activities'

# The forms that answer the small deck, and the benchmark, as the usage line names them.
mapfile -t forms < <(forms_of_plans | sed 's/ L$/ 6/; s/ P$/ 7/' && echo 'bench 4')
[ "${#forms[@]}" -ge 6 ] || { echo "FAILED acceptance: no forms in the usage line" && failed=$((failed + 1)); }

# A full device takes nothing.
if [ -e /dev/full ]; then
    want 5 '' ''
    for form in "${forms[@]}"; do
        # shellcheck disable=SC2086 # a form may have two words
        "$pert" $form <"$shed" >/dev/full 2>"$scratch/stderr"
        echo $? >"$scratch/status"
        : >"$scratch/stdout"
        judge "output is full, $form"
    done

    want 5 '' ''
    "$pert" nothing <"$shed" >"$scratch/stdout" 2>/dev/full
    echo $? >"$scratch/status"
    : >"$scratch/stderr"
    judge 'error output is full'

    want 5 '' ''
    "$pert" times </dev/null >"$scratch/stdout" 2>/dev/full
    echo $? >"$scratch/status"
    : >"$scratch/stderr"
    judge 'error output is full for a fault'
fi

# A closed standard output takes nothing either.
want 5 '' ''
for form in "${forms[@]}"; do
    # shellcheck disable=SC2086
    "$pert" $form <"$shed" >&- 2>"$scratch/stderr"
    echo $? >"$scratch/status"
    : >"$scratch/stdout"
    judge "output is closed, $form"
done

# The input may come in pieces of one byte.
want 0 "$schedule" ''
(while IFS= read -r -d '' -n 1 byte || [ -n "$byte" ]; do printf '%s' "${byte:-$'\n'}"; done <"$shed") |
    "$pert" normal >"$scratch/stdout" 2>"$scratch/stderr"
echo $? >"$scratch/status"
judge 'input in single bytes'

# A deck of 67,108,865 bytes and more is refused, and one of just the limit is read.
want 1 '' 'F1 record 0: more than 67108864 bytes\n'
{ cat "$shed"; head -c 68000000 /dev/zero | tr '\0' ','; } |
    "$pert" normal >"$scratch/stdout" 2>"$scratch/stderr"
echo $? >"$scratch/status"
judge 'a deck of 68 MB'

want 0 "$schedule" ''
{ head -c $((67108864 - $(wc -c <"$shed"))) /dev/zero | tr '\0' '\n'; cat "$shed"; } |
    "$pert" normal >"$scratch/stdout" 2>"$scratch/stderr"
echo $? >"$scratch/status"
judge 'a deck of just the limit'

# One byte more than the limit is refused, and the limit of each kind is that of the deck's version.
want 1 '' 'F1 record 0: more than 67108864 bytes\n'
{ head -c $((67108865 - $(wc -c <"$shed"))) /dev/zero | tr '\0' '\n'; cat "$shed"; } |
    "$pert" normal >"$scratch/stdout" 2>"$scratch/stderr"
echo $? >"$scratch/status"
judge 'a deck of one byte past the limit'

# too_many VERSION LIMIT KIND FORMAT: one card more than the limit of the kind; FORMAT prints a card with its number
too_many() {
    want 1 '' "F10 record $(($2 + 2)): more than $2 $3 cards\n"
    { echo "PROJECT,E,S,T,2024-01-01,1,,,$1"; seq -f "$4" 0 "$2"; echo END; } |
        "$pert" check >"$scratch/stdout" 2>"$scratch/stderr"
    echo $? >"$scratch/status"
    judge "$2 $3 cards of version $1"
}
too_many '' 5000 EVENT 'EVENT,E%.0f,'
too_many 1 10000 ACT 'ACT,A%.0f,S,T,1,0,0,0,0,0,0,0,'
too_many 1 40000 PIECE 'PIECE,A%.0f,1,1'
too_many '' 200000 CHARGE 'CHARGE,X%.0f,2024-01-01,1'
too_many 1 20000 STATUS 'STATUS,A%.0f,S,2024-01-01'
too_many 2 10000 EVENT 'EVENT,E%.0f,'
too_many 2 20000 ACT 'ACT,A%.0f,S,T,1,0,0,0,0,0,0,0,'
too_many 2 80000 PIECE 'PIECE,A%.0f,1,1'
too_many 2 500000 CHARGE 'CHARGE,X%.0f,2024-01-01,1'
too_many 2 40000 STATUS 'STATUS,A%.0f,S,2024-01-01'
for version in 1 2; do
    too_many "$version" 10000 WBS 'WBS,I%.0f,,'
    too_many "$version" 10000 ACCT 'ACCT,X%.0f,1,0,'
    too_many "$version" 100000 TOGO 'TOGO,X%.0f,2024-01-01,1'
    too_many "$version" 1000 RES 'RES,R%.0f,'
    too_many "$version" 40000 LOAD 'LOAD,A%.0f,R,1'
done

# As many EVENT cards as version 1 allows no longer are one too many in version 2.
want 1 '' 'F12 record 5003: no END\n'
{ echo 'PROJECT,E,S,T,2024-01-01,1,,,2'; seq -f 'EVENT,E%.0f,' 0 5000; } |
    "$pert" check >"$scratch/stdout" 2>"$scratch/stderr"
echo $? >"$scratch/status"
judge '5001 events of version 2'

# A word that is not UTF-8 is none of the forms, nor is one with a character more or less, nor are two words, or a number that
# is missing or none.
want 2 '' "$(cat "$here/no-words/stderr")\n"
for word in $'\xff' '' Check CHECK checks chec 'times ' ' times' $'times\n' time certif certifys migrat migrates point 'point 6' outlook bench bench4 -h --help; do
    "$pert" "$word" <"$shed" >"$scratch/stdout" 2>"$scratch/stderr"
    echo $? >"$scratch/status"
    judge "the word '$word'"
done

mapfile -t without_number < <(forms_of_plans | grep -v ' ')
for first in "${without_number[@]}"; do
    for second in x '' "$first" 6; do
        "$pert" "$first" "$second" <"$shed" >"$scratch/stdout" 2>"$scratch/stderr"
        echo $? >"$scratch/status"
        judge "the words '$first' and '$second'"
    done
done

for number in '' x 06 00 -1 +6 6.0 ' 6' '6 ' 0x6 10000000000000 99999999999999999999 $'6\n' ٦; do
    "$pert" point "$number" <"$shed" >"$scratch/stdout" 2>"$scratch/stderr"
    echo $? >"$scratch/status"
    judge "point and the number '$number'"
done

# The greatest number of 13 digits is a length, and none of the shed.
want 1 '' 'F32 record 0: length 9999999999999 is outside 5 to 9\n'
"$pert" point 9999999999999 <"$shed" >"$scratch/stdout" 2>"$scratch/stderr"
echo $? >"$scratch/status"
judge 'point and the greatest number'

# As many events as there may be, in one row of activities, and the next one is too many.
want 0 "LENGTH 4999\nCOST 0\n$(seq 0 4999 | sed 's/.*/EVENT & &/')\n$(seq 0 4998 | sed 's/.*/ACT & 1/')\n" ''
{
    printf '%s\n' PROJECT,E,0,4999,2024-01-01,1,, WBS,1,,
    events 5000
    paste -d, <(seq 0 4998) <(seq 0 4998) <(seq 1 4999) | activity_cards
    echo END
} | "$pert" normal >"$scratch/stdout" 2>"$scratch/stderr"
echo $? >"$scratch/status"
judge 'as many events as there may be'

want 1 '' 'F10 record 5002: more than 5000 EVENT cards\n'
{ echo 'PROJECT,E,S,T,2024-01-01,1,,'; events 5002; echo END; } |
    "$pert" normal >"$scratch/stdout" 2>"$scratch/stderr"
echo $? >"$scratch/status"
judge 'one event too many'

# A cycle through all events but the start and the end, after activities that leave it.
want 1 '' "F27 record 10002: activities in a cycle: $(seq -s ' ' 1 4998)\n"
{
    printf '%s\n' PROJECT,E,0,4999,2024-01-01,1,, WBS,1,,
    events 5000
    seq 1 4998 | sed 's/.*/L&,&,4999/' | activity_cards
    echo IN,0,1 | activity_cards
    paste -d, <(seq 1 4998) <(seq 1 4998) <(seq 2 4998; echo 1) | activity_cards
    echo END
} >"$scratch/deck"
"$pert" check <"$scratch/deck" >"$scratch/stdout" 2>"$scratch/stderr"
echo $? >"$scratch/status"
judge 'a cycle of 4,998 activities'

# A loop of half the items allowed, after a row of items that hangs below it.
want 1 '' "F22 record 5002: items in a loop: $(seq -s ' ' 5000 9999)\n"
{
    printf '%s\n' PROJECT,E,0,1,2024-01-01,1,, WBS,0,,
    paste -d, <(seq 1 9999) <(seq 2 9999; echo 5000) | sed 's/.*/WBS,&,/'
    events 2
    echo END
} >"$scratch/deck"
"$pert" check <"$scratch/deck" >"$scratch/stdout" 2>"$scratch/stderr"
echo $? >"$scratch/status"
judge 'a loop of 5,000 items'

# Lone carriage returns end lines too.
want 0 "$schedule" ''
tr '\n' '\r' <"$shed" | "$pert" normal >"$scratch/stdout" 2>"$scratch/stderr"
echo $? >"$scratch/status"
judge 'lone carriage returns'

# As many charges on one account as a deck may have, and each of the greatest amount but the last.
want 0 "SUMMARY SUMS 2024-01-01
ITEM             LV         BUDGET         ACTUAL          TO-GO         LATEST        OVERRUN TITLE
1                 1              0 199999000000000001              0 199999000000000001 199999000000000001 
LEVEL             1              0 199999000000000001              0 199999000000000001 199999000000000001
" ''
{
    printf 'PROJECT,SUMS,S,T,2024-01-01,1,,\nWBS,1,,\nEVENT,S,\nEVENT,T,\nACT,A,S,T,1,1,1,1,1,1,0,0,\nACCT,X,1,0,\n'
    yes CHARGE,X,2024-01-01,1000000000000 | head -n 199999
    printf 'CHARGE,X,2024-01-01,1\nEND\n'
} | "$pert" summary >"$scratch/stdout" 2>"$scratch/stderr"
echo $? >"$scratch/status"
judge '200,000 charges on one account'

# shellcheck shell=bash disable=SC2154,SC2034,SC2030,SC2031 # what is used here and not set is set by `run.sh`; `$1` is not changed in any subshell
# The cases of decks of tasks; read by `run.sh`, which has `pert`, `scratch`, `want` and `judge`, `passes` and `events`.

tasks=$here/arrows/deck.csv

# drawn NAME DECK: the arrows of the deck of tasks are an accepted deck in its one form, with a curve and a certificate that passes
drawn() {
    local plan=$scratch/plan.csv
    want 0 '' ''
    "$pert" arrows <"$2" >"$plan" 2>"$scratch/stderr"
    echo $? >"$scratch/status"
    : >"$scratch/stdout"
    judge "$1, its arrows"
    want 0 "accepted $(sed -n '1s/^PROJECT,\([^,]*\),.*,2$/\1/p' "$plan")\n" ''
    "$pert" check <"$plan" 2>"$scratch/stderr" >"$scratch/answer"
    echo $? >"$scratch/status"
    head -n 1 "$scratch/answer" >"$scratch/stdout"
    judge "$1, its arrows checked"
    want 0 '' ''
    cp "$plan" "$scratch/want/stdout"
    "$pert" migrate <"$plan" >"$scratch/stdout" 2>"$scratch/stderr"
    echo $? >"$scratch/status"
    judge "$1, its arrows migrated"
    want 0 ' -\n' ''
    "$pert" curve <"$plan" 2>"$scratch/stderr" >"$scratch/answer"
    echo $? >"$scratch/status"
    tail -n 1 "$scratch/answer" | grep -o ' -$' >"$scratch/stdout"
    judge "$1, the curve of its arrows"
    passes "$1, the certificate of its arrows" "$plan"
}

line_number=0
while IFS='|' read -r records line; do
    line_number=$((line_number + 1))
    case $records in '#'*) continue ;; esac
    printf '%b' "${records//\//\\n}" | LC_ALL=C sed -E '
        s/^P$/PROJECT,E,S,T,2024-01-01,7,1000000,/
        s/^([^,:]*):([^,:]*)$/WBS,\1,\2,/
        s/^\[([^],]*)\]$/TASK,\1,1.1,0,0,0,0,0,0,0,/
        s/^([^,>]*)>([^,>]*)$/AFTER,\2,\1/' >"$scratch/deck"
    if [ "$line" = accepted ]; then
        drawn "line $line_number of task-faults" "$scratch/deck"
        continue
    fi
    want 1 '' "$line\n"
    "$pert" arrows <"$scratch/deck" >"$scratch/stdout" 2>"$scratch/stderr"
    echo $? >"$scratch/status"
    judge "line $line_number of task-faults"
done <"$here/task-faults"

# Every accepted deck of tasks of the examples and of the cases.
accepted=0
for deck in "$top"/examples/*.csv "$here"/*/deck.csv; do
    "$pert" arrows <"$deck" >/dev/null 2>&1 || continue
    accepted=$((accepted + 1))
    name=${deck#"$top/"}
    drawn "${name%/deck.csv}" "$deck"
done
[ "$accepted" -ge 2 ] || { echo "FAILED acceptance: only $accepted accepted decks of tasks were drawn"; failed=$((failed + 1)); }

# Shortening A by two units costs 3 each, and then B by two 5 each. Between them lies the only cheapest schedule for 6 units.
"$pert" arrows <"$tasks" >"$scratch/plan.csv"
want 0 '9 30 3\n7 36 5\n5 46 -\n' ''
"$pert" curve <"$scratch/plan.csv" >"$scratch/stdout" 2>"$scratch/stderr"
echo $? >"$scratch/status"
judge 'the curve of two tasks'
want 0 "LENGTH 6\nCOST 41\n$(printf 'EVENT %s\\n' 'S 0' '_b1 0' '_e1 2' '_b2 2' '_e2 6' 'T 6')$(printf 'ACT %s\\n' 'A 2' 'B 4' '_a1 0' '_s1 0' '_t2 0')" ''
"$pert" point 6 <"$scratch/plan.csv" >"$scratch/stdout" 2>"$scratch/stderr"
echo $? >"$scratch/status"
judge 'a schedule of two tasks'

# No other word and no second one.
want 2 '' "$(cat "$here/no-words/stderr")\n"
for word in arrow arrowss Arrows ARROWS 'arrows ' ' arrows' $'arrows\n' 'arrows 6'; do
    "$pert" "$word" <"$tasks" >"$scratch/stdout" 2>"$scratch/stderr"
    echo $? >"$scratch/status"
    judge "the word '$word'"
done
for second in x '' arrows 6; do
    "$pert" arrows "$second" <"$tasks" >"$scratch/stdout" 2>"$scratch/stderr"
    echo $? >"$scratch/status"
    judge "the words 'arrows' and '$second'"
done

# A folder can't be read, and a device that is full or closed takes nothing.
want 4 '' ''
"$pert" arrows <"$scratch" >"$scratch/stdout" 2>"$scratch/stderr"
echo $? >"$scratch/status"
judge 'arrows of a folder'
want 5 '' ''
if [ -e /dev/full ]; then
    "$pert" arrows <"$tasks" >/dev/full 2>"$scratch/stderr"
    echo $? >"$scratch/status"
    : >"$scratch/stdout"
    judge 'output is full, arrows'
    "$pert" arrows </dev/null >"$scratch/stdout" 2>/dev/full
    echo $? >"$scratch/status"
    : >"$scratch/stderr"
    judge 'error output is full for a fault of tasks'
fi
"$pert" arrows <"$tasks" >&- 2>"$scratch/stderr"
echo $? >"$scratch/status"
: >"$scratch/stdout"
judge 'output is closed, arrows'

# The deck may come in pieces of one byte.
want_files "$here/arrows"
(while IFS= read -r -d '' -n 1 byte || [ -n "$byte" ]; do printf '%s' "${byte:-$'\n'}"; done <"$tasks") |
    "$pert" arrows >"$scratch/stdout" 2>"$scratch/stderr"
echo $? >"$scratch/status"
judge 'tasks in single bytes'

# A deck of just the limit is read, and one byte more is too many.
{ head -c $((67108864 - $(wc -c <"$tasks"))) /dev/zero | tr '\0' '\n'; cat "$tasks"; } |
    "$pert" arrows >"$scratch/stdout" 2>"$scratch/stderr"
echo $? >"$scratch/status"
judge 'a deck of tasks of just the limit'
want 1 '' 'F1 record 0: more than 67108864 bytes\n'
{ head -c $((67108865 - $(wc -c <"$tasks"))) /dev/zero | tr '\0' '\n'; cat "$tasks"; } |
    "$pert" arrows >"$scratch/stdout" 2>"$scratch/stderr"
echo $? >"$scratch/status"
judge 'a deck of tasks of one byte past the limit'

# too_many_tasks VERSION LIMIT KIND FORMAT: in a deck of tasks one card more than the limit of the kind; FORMAT prints a card with its number
too_many_tasks() {
    want 1 '' "F10 record $(($2 + 2)): more than $2 $3 cards\n"
    { echo "PROJECT,E,S,T,2024-01-01,1,,,$1"; seq -f "$4" 0 "$2"; echo END; } |
        "$pert" arrows >"$scratch/stdout" 2>"$scratch/stderr"
    echo $? >"$scratch/status"
    judge "$2 $3 cards of a deck of tasks of version $1"
}
# The limits are those of version 2, whatever the PROJECT card says.
for version in '' 1 2; do
    too_many_tasks "$version" 4000 TASK 'TASK,A%.0f,1,0,0,0,0,0,0,0,'
    too_many_tasks "$version" 8000 AFTER 'AFTER,A%.0f,B'
    too_many_tasks "$version" 9999 WBS 'WBS,I%.0f,,'
    too_many_tasks "$version" 80000 PIECE 'PIECE,A%.0f,1,1'
    too_many_tasks "$version" 40000 STATUS 'STATUS,A%.0f,S,2024-01-01'
done
too_many_tasks '' 500000 CHARGE 'CHARGE,X%.0f,2024-01-01,1'
too_many_tasks '' 100000 TOGO 'TOGO,X%.0f,2024-01-01,1'
too_many_tasks '' 10000 ACCT 'ACCT,X%.0f,1,0,'
too_many_tasks '' 1000 RES 'RES,R%.0f,'
too_many_tasks '' 40000 LOAD 'LOAD,A%.0f,R,1'

# As many items, tasks and AFTER cards as there may be: the AFTER cards all name the same two tasks, so that all others have links from the
# start and to the end.
want 0 'accepted E\nevents 8002\nactivities 19998\nitems 10000\naccounts 0\ncharges 0\ntogos 0\nstatuses 0\n' ''
{
    echo PROJECT,E,S,T,2024-01-01,1,,
    echo WBS,1,,
    seq -f 'WBS,I%.0f,1,' 2 9999
    seq -f 'TASK,A%.0f,I2,0,0,0,0,0,0,0,' 1 4000
    for ((n = 0; n < 8000; n++)); do echo AFTER,A2,A1; done
    echo END
} >"$scratch/deck"
"$pert" arrows <"$scratch/deck" 2>"$scratch/stderr" | "$pert" check >"$scratch/stdout" 2>>"$scratch/stderr"
echo $? >"$scratch/status"
judge 'as many tasks as there may be'
drawn 'as many tasks as there may be' "$scratch/deck"

# shellcheck shell=bash disable=SC2154,SC2034 # what is used here and not set is set by `run.sh`
# The cases of pert_whatif; read by `run.sh`, which has `pert_whatif`, `scratch`, `want` and `judge`. Its deck is the one of three activities that
# `certificate` checks, and where a piece is asked for, the same with a PIECE card.

session_deck=$here/certificate/deck.csv
sed 's/^END/PIECE,A,1,4\n&/' "$session_deck" >"$scratch/pieces.csv"

# session NAME LINES ANSWERS [DECK]: what lines (with \n) are answered, with status 0
session() {
    want 0 "$3" ''
    printf '%b' "$2" | "$pert_whatif" "${4:-$session_deck}" >"$scratch/stdout" 2>"$scratch/stderr"
    echo $? >"$scratch/status"
    judge "session: $1"
}

want 0 '' ''
printf 'ESTIMATE B 4 5 18\nTIMES\n' | "$pert_whatif" "$session_deck" 2>"$scratch/stderr" >"$scratch/answer"
echo $? >"$scratch/status"
awk '$1 == "B" || $1 == "T"' "$scratch/answer" | tr -s ' ' >"$scratch/stdout"
printf 'T 66 66 0 2024-01-12\nB 42 196 0\n' >"$scratch/want/stdout"
judge 'session: estimates move the times'

# Each reason, and of two the one that is tried first.
session 'none of the forms' 'curve\n CURVE\nCURVE \nNORMAL A\nNORMAL A 1 2\nNORMAL  A 1\nNORMAL A 01\nNORMAL A +1\nNORMAL A 1.0\nTRY A 4 2 3\nUNDO 1\nESTIMATE A 1 2\n' \
    "$(printf 'NO 1\\n%.0s' {1..12})"
session 'an unknown activity, before a number over its limit' 'NORMAL Q 100001\nTRY Q 1 2 3 4\n' 'NO 2\nNO 2\n'
session 'a number over its limit' 'NORMAL A 100001\nCRASH A 100001\nSLOPE A 100000001\nESTIMATE A 1 2 100001\nTRY A 100001 2 3 7\nTRY A 4 2 100000001 7\n' \
    'NO 3\nNO 3\nNO 3\nNO 3\nNO 3\nNO 3\n'
session 'numbers at their limits' 'NORMAL A 100000\nUNDO\nSLOPE A 100000000\nUNDO\nESTIMATE A 0 0 100000\nUNDO\n' 'OK\nOK\nOK\nOK\nOK\nOK\n'
session 'a crash duration above the normal one' 'CRASH A 5\nNORMAL A 1\nTRY A 1 2 3 7\n' 'NO 4\nNO 4\nNO 4\n'
session 'estimates out of order' 'ESTIMATE A 5 4 6\nESTIMATE A 3 6 5\n' 'NO 5\nNO 5\n'
session 'a piece that does not fit' 'SLOPE A 4\nNORMAL A 3\nCRASH A 3\nTRY A 3 2 3 7\nSLOPE A 3\n' 'NO 6\nNO 6\nNO 6\nNO 6\nOK\n' "$scratch/pieces.csv"
session 'nothing to undo' 'UNDO\nSLOPE A 5\nUNDO\nUNDO\n' 'NO 7\nOK\nOK\nNO 7\n'
session 'a length outside the range' 'TRY A 4 2 3 4\nTRY A 4 2 3 5\nTRY A 4 2 3 9\nTRY A 4 2 3 10\nTRY A 4 2 3 9999999999999\n' 'NO 8\nCOST 65\nCOST 45\nNO 8\nNO 8\n'

# How lines end, and what is in them.
session 'a line of 96 bytes, and one of 97' "$(printf 'A%.0s' {1..96})\n$(printf 'A%.0s' {1..97})\n$(printf 'A%.0s' {1..100000})\n" 'NO 1\nNO 1\nNO 1\n'
session 'a return before the end of a line' 'UNDO\r\n' 'NO 1\n'
session 'an empty line' '\n\nUNDO\n' 'NO 1\nNO 1\nNO 7\n'
session 'a zero byte' 'UNDO\0\n\0\n' 'NO 1\nNO 1\n'
session 'bytes that are no text' '\xff\xfe\n' 'NO 1\n'
session 'the last line has no end' 'UNDO\nUNDO' 'NO 7\nNO 7\n'
session 'no line' '' ''

# A thousand edits are kept; one before them stays in effect although it can't be taken back.
want 0 '' ''
{
    for ((n = 1; n <= 1001; n++)); do echo "SLOPE A $n"; done
    for ((n = 1; n <= 1001; n++)); do echo UNDO; done
    echo CURVE
} | "$pert_whatif" "$session_deck" 2>"$scratch/stderr" >"$scratch/answer"
echo $? >"$scratch/status"
sort "$scratch/answer" | uniq -c | tr -s ' ' | sed 's/^ //' | sort -rn >"$scratch/stdout"
# With the slope 1 for A the first two units cost 1 each, and then one of B at 5 and one of C at 2 go together.
printf '2001 OK\n1 NO 7\n1 9 45 1\n1 7 47 7\n1 5 61 -\n' | sort -rn >"$scratch/want/stdout"
judge 'session: a thousand edits are kept'

# Ten thousand trials, each answered alike.
want 0 '10000 COST 58\n' ''
for ((n = 0; n < 10000; n++)); do echo 'TRY A 4 2 3 6'; done | "$pert_whatif" "$session_deck" 2>"$scratch/stderr" >"$scratch/answer"
echo "${PIPESTATUS[1]}" >"$scratch/status"
uniq -c "$scratch/answer" | tr -s ' ' | sed 's/^ //' >"$scratch/stdout"
judge 'session: ten thousand trials'

# Statuses.
want 2 '' 'usage: pert_whatif DECK\n'
echo UNDO | "$pert_whatif" >"$scratch/stdout" 2>"$scratch/stderr"
echo $? >"$scratch/status"
judge 'session: no word'
echo UNDO | "$pert_whatif" "$session_deck" "$session_deck" >"$scratch/stdout" 2>"$scratch/stderr"
echo $? >"$scratch/status"
judge 'session: two words'
mkfifo "$scratch/session-pipe"
echo UNDO | timeout 60 "$pert_whatif" "$scratch/session-pipe" extra >"$scratch/stdout" 2>"$scratch/stderr"
echo $? >"$scratch/status"
judge 'session: a pipe and another word'
want 1 'UNDO\n' 'F12 record 1: no END\n'
echo UNDO | (
    "$pert_whatif" /dev/null 2>"$scratch/stderr"
    echo $? >"$scratch/status"
    cat
) >"$scratch/stdout"
judge 'session: a refused deck leaves the lines unread'
want 4 '' ''
echo UNDO | "$pert_whatif" "$scratch/none.csv" >"$scratch/stdout" 2>"$scratch/stderr"
echo $? >"$scratch/status"
judge 'session: no such deck'
"$pert_whatif" "$session_deck" <"$scratch" >"$scratch/stdout" 2>"$scratch/stderr"
echo $? >"$scratch/status"
judge 'session: the lines are a folder'
"$pert_whatif" "$session_deck" <&- >"$scratch/stdout" 2>"$scratch/stderr"
echo $? >"$scratch/status"
judge 'session: a closed input'
if [ -e /dev/full ]; then
    want 5 '' ''
    echo UNDO | "$pert_whatif" "$session_deck" >/dev/full 2>"$scratch/stderr"
    echo $? >"$scratch/status"
    : >"$scratch/stdout"
    judge 'session: a full device'
fi
want 8 '5592405 NO 1\n' ''
yes UNDOUNDOUNDOUNDOUNDOUND | head -c 134217729 | "$pert_whatif" "$session_deck" 2>"$scratch/stderr" >"$scratch/answer"
echo "${PIPESTATUS[2]}" >"$scratch/status"
uniq -c "$scratch/answer" | tr -s ' ' | sed 's/^ //' >"$scratch/stdout"
judge 'session: more lines than may be'
want 0 '5592406 NO 1\n' ''
yes UNDOUNDOUNDOUNDOUNDOUND | head -c 134217728 | "$pert_whatif" "$session_deck" 2>"$scratch/stderr" >"$scratch/answer"
echo "${PIPESTATUS[2]}" >"$scratch/status"
uniq -c "$scratch/answer" | tr -s ' ' | sed 's/^ //' >"$scratch/stdout"
judge 'session: as many lines as may be'

# Each answer comes before the next line is asked for.
want 0 'OK\nCOST 58\nNO 7\n' ''
coproc SESSION { "$pert_whatif" "$session_deck" 2>"$scratch/stderr"; echo $? >"$scratch/status"; }
session_in=${SESSION[1]}
session_out=${SESSION[0]}
session_process=$SESSION_PID
: >"$scratch/stdout"
for line in 'SLOPE A 3' 'TRY A 4 2 3 6'; do
    echo "$line" >&"$session_in"
    IFS= read -r -t 10 answer <&"$session_out" && echo "$answer" >>"$scratch/stdout"
done
printf 'UNDO\nUNDO' >&"$session_in"
IFS= read -r -t 10 answer <&"$session_out"
exec {session_in}>&-
IFS= read -r -t 10 answer <&"$session_out" && echo "$answer" >>"$scratch/stdout"
wait "$session_process" 2>/dev/null
judge 'session: an answer before the next line'

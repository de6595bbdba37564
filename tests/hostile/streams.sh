#!/usr/bin/env bash
# What limited memory, devices, pipes and files do to the built programs while they work.
#
#   tests/hostile/streams.sh [FOLDER]     FOLDER: where the programs are (default: as `rt ci` leaves them)
#
# Memory is limited in steps: the answer is complete, or the status is 3 and nothing was written. A file that may not grow, a closed pipe and a full
# device take the beginning of the answer, and the status is 5; a file that may not grow ends a program by the signal SIGXFSZ unless that is ignored.
# A folder as deck gives 4. Each combination of closed standard streams has one status. Wrong words are refused before a file is opened. A deck that
# changes while it is read is answered like some deck.

# shellcheck disable=SC2016 # `expect` and `least` evaluate their conditions, which are therefore in single quotes
set -u
export LC_ALL=C
top=$(cd "$(dirname "$0")/../.." && pwd)
folder=${1:+$(cd "$1" && pwd)}
pert=${folder:-$top/crates/pert/out}/pert
pert_check=${folder:-$top/crates/pert_check/out}/pert_check
pert_whatif=${folder:-$top/crates/pert_whatif/out}/pert_whatif
for program in "$pert" "$pert_check" "$pert_whatif"; do
    [ -x "$program" ] || { echo "hostile: no program at $program (run 'make' or 'rt ci' first)"; exit 1; }
done
scratch=$(mktemp -d) || exit 1
trap 'rm -rf "$scratch"' EXIT
cd "$scratch" || exit 1
tried=0
failed=0

# expect NAME CONDITION..
expect() {
    local name=$1
    shift
    tried=$((tried + 1))
    if "$@"; then return; fi
    failed=$((failed + 1))
    echo "FAILED streams: $name: status $status, $(wc -c <out) bytes, $(head -c 100 err)"
}

# the forms that read a plan, as the usage line names them, with a length that the deck below has
mapfile -t forms < <("$pert" 2>&1 | sed 's/^usage: pert //' | tr '|' '\n' | sed 's/^ *//; s/ *$//; s/ L$/ 250/; s/ P$/ 3660/; /^bench/d; /^arrows/d')
[ "${#forms[@]}" -ge 6 ] || { echo "FAILED streams: no forms in the usage line"; exit 1; }
# and the one that reads tasks; deck_of FORM: the deck that a form reads
forms+=(arrows)
deck_of() { case $1 in arrows) echo tasks ;; *) echo deck ;; esac; }

# A row of 200 activities of which each can be shortened by a unit: its certificate has 200 segments. And a deck of 4,000 tasks
# in a row.
{
    printf '%s\n' PROJECT,ROW,0,200,2024-01-01,1,, WBS,1,,
    seq 0 200 | sed 's/.*/EVENT,&,/'
    seq 0 199 | awk '{ print "ACT,A" $1 "," $1 "," $1 + 1 ",1,0,0,0,2,1,0," $1 + 1 "," }'
    echo END
} >deck
"$pert" certify <deck >certificate || { echo "FAILED streams: no certificate"; exit 1; }
size=$(wc -c <certificate)
{
    printf '%s\n' PROJECT,ROW,S,T,2024-01-01,1,, WBS,1,, WBS,1.1,1,
    seq 1 4000 | sed 's/.*/TASK,A&,1.1,0,0,0,2,1,0,&,/'
    seq 2 4000 | awk '{ print "AFTER,A" $1 ",A" $1 - 1 }'
    echo END
} >tasks
"$pert" arrows <tasks >drawn || { echo "FAILED streams: no arrows"; exit 1; }

# Memory.
# within KIB: what the command in `command` does with so much memory; `status`, out and err
within() {
    (ulimit -v "$1" && exec "${command[@]}") <input >out 2>err
    status=$?
}
# least NAME CONDITION: the least memory with which the condition holds, by halving; it holds with 4 GiB
least() {
    local low=0 high=4194304 middle
    while [ $((high - low)) -gt 4 ]; do
        middle=$(((low + high) / 2))
        within "$middle" 2>/dev/null
        if eval "$1"; then high=$middle; else low=$middle; fi
    done
    echo "$high"
}
# short NAME STATUS WORD..: the command, whose answer is in `wanted`, in 24 steps from what it needs to begin to what it needs
short() {
    local name=$1 answer=$2 step need want=0
    command=("${@:3}")
    need=$(least '[ "$status" -eq '"$answer"' ]')
    for ((step = 0; step <= 26; step++)); do
        within $((floor_of_all + (need - floor_of_all) * step / 24))
        if [ "$status" -eq 3 ]; then
            want=$((want + 1))
            expect "$name, step $step of memory" test ! -s out -a ! -s err
        else
            expect "$name, step $step of memory" eval '[ "$status" -eq '"$answer"' ] && cmp -s out wanted && [ ! -s err ]'
        fi
    done
    expect "$name, out of memory" test "$want" -ge 3
}
cp deck input
command=("$pert" none)
# What the program needs to begin, and two pages of 4 KiB: a form's stack may be a page deeper than that of the usage line, and a program
# whose stack cannot grow is ended by a signal, which no program can turn into a status.
floor_of_all=$(($(least '[ "$status" -eq 2 ]') + 8))
for form in "${forms[@]}"; do
    cp "$(deck_of "$form")" input
    # shellcheck disable=SC2086  # a form may have two words
    "$pert" $form <input >wanted
    # shellcheck disable=SC2086
    short "$form" 0 "$pert" $form
done
cp certificate input
echo 'certified 200' >wanted
short 'pert_check' 0 "$pert_check" deck
cp deck input

# A file that may not grow further, in the middle of the answer. Where SIGXFSZ is ignored, the write fails as on a full device, and the
# status is 5. Otherwise the signal ends the program, which a shell reports as 128 and the signal's number: 153.
xfsz=$((128 + $(kill -l XFSZ)))
# limited ENDS BLOCKS WORD..: `pert` with these words, whose output may not grow past the blocks; SIGXFSZ is ignored where ENDS is 5
limited() {
    local how=--default-signal=XFSZ
    [ "$1" -ne 5 ] || how=--ignore-signal=XFSZ
    { (ulimit -c 0; ulimit -f "$2"; exec env "$how" "$pert" "${@:3}") <"$(deck_of "$3")" >out 2>err; status=$?; } 2>shell
}
# full FORM ANSWER: the form answers its deck so
full() {
    local blocks ends
    for blocks in 0 1 16 63 64 65 100 200; do
        [ $((blocks * 1024)) -lt "$(wc -c <"$2")" ] || break
        for ends in 5 "$xfsz"; do
            limited "$ends" "$blocks" "$1"
            expect "a file of $blocks KiB, $1, to end with $ends" eval '[ "$status" -eq '"$ends"' ] && [ ! -s err ] && cmp -s -n "$(wc -c <out)" out '"$2"' && [ "$(wc -c <out)" -le '"$((blocks * 1024))"' ]'
        done
    done
}
full certify certificate
full arrows drawn
for form in "${forms[@]}"; do
    for ends in 5 "$xfsz"; do
        # shellcheck disable=SC2086
        limited "$ends" 0 $form
        expect "a file that takes nothing, $form, to end with $ends" eval '[ "$status" -eq '"$ends"' ] && [ ! -s out ] && [ ! -s err ]'
    done
done

# A pipe that is closed after so many bytes of the answer.
# closed FORM ANSWER: the form answers its deck so
closed() {
    local bytes
    for bytes in 1 4096 65536 65537 100000 200000; do
        [ $((bytes + 200000)) -lt "$(wc -c <"$2")" ] || break
        (trap '' PIPE; "$pert" "$1" <"$(deck_of "$1")" 2>err; echo $? >status) | head -c "$bytes" >out
        until [ -s status ]; do sleep 0.01; done
        status=$(cat status)
        rm status
        expect "a pipe closed after $bytes bytes, $1" eval '[ "$status" -eq 5 ] && [ ! -s err ] && head -c '"$bytes $2"' | cmp -s - out'
    done
}
closed certify certificate
closed arrows drawn

# A certificate whose writer goes away in the middle is one that ends there; one whose end never comes is waited for.
head -c $((size / 2)) certificate | "$pert_check" deck >out 2>err
status=$?
lines=$(head -c $((size / 2)) certificate | wc -l)
expect 'a certificate that ends in the middle' eval '[ "$status" -eq 6 ] && [ "$(cat out)" = "not certified line '"$((lines + 1))"' reason 0" ]'

# A folder as deck.
for form in "${forms[@]}"; do
    # shellcheck disable=SC2086
    "$pert" $form <. >out 2>err
    status=$?
    expect "a folder, $form" eval '[ "$status" -eq 4 ] && [ ! -s out ] && [ ! -s err ]'
done

# Closed standard streams, in each combination. A file that is opened then gets the number of a closed one: the program must neither read
# the deck again as its standard input nor write into it.
# closing CLOSED IN COMMAND..: runs the command with the streams closed whose numbers are in CLOSED; standard input is the file IN
closing() {
    local closed=$1 in=$2
    shift 2
    : >out
    : >err
    (
        exec <"$in" >out 2>err
        case $closed in *0*) exec <&- ;; esac
        case $closed in *1*) exec >&- ;; esac
        case $closed in *2*) exec 2>&- ;; esac
        exec "$@"
    )
    status=$?
}
# combined NAME IN STATUS COMMAND..: the command has this status where no stream is closed, with its answer in `wanted`, or its line on
# standard error in `told`. It ends with 4 where standard input is closed and it would read that, and with 5 where the stream that it
# would write to is closed. Nothing is written anywhere else.
combined() {
    local name=$1 in=$2 open=$3 reads=$4 closed wants
    shift 4
    for closed in - 0 1 2 01 02 12 012; do
        wants=$open
        case $open,$closed in 0,*1* | 6,*1* | 1,*2* | 2,*2*) wants=5 ;; esac
        case $reads,$closed in yes,*0*) wants=4 ;; esac
        closing "$closed" "$in" "$@"
        case $wants in
            0 | 6) expect "$name, closed: $closed" eval '[ "$status" -eq '"$wants"' ] && cmp -s out wanted && [ ! -s err ]' ;;
            1 | 2) expect "$name, closed: $closed" eval '[ "$status" -eq '"$wants"' ] && cmp -s err told && [ ! -s out ]' ;;
            *) expect "$name, closed: $closed" eval '[ "$status" -eq '"$wants"' ] && [ ! -s out ] && [ ! -s err ]' ;;
        esac
        expect "$name, closed: $closed, the deck" cmp -s deck kept
    done
}
cp deck kept
echo END >refused
echo UNDO >lines
head -c 67108865 /dev/zero >long
for form in "${forms[@]}"; do
    deck=$(deck_of "$form")
    # shellcheck disable=SC2086
    "$pert" $form <"$deck" >wanted
    # shellcheck disable=SC2086
    combined "$form" "$deck" 0 yes "$pert" $form
done
"$pert" check <refused 2>told
combined 'a refused deck' refused 1 yes "$pert" check
"$pert" check <long 2>told
combined 'a deck that is too long' long 1 yes "$pert" check
"$pert" none 2>told
combined 'pert, wrong words' deck 2 no "$pert" none
echo 'certified 200' >wanted
combined pert_check certificate 0 yes "$pert_check" deck
echo 'not certified line 1 reason 0' >wanted
combined 'pert_check, a wrong certificate' lines 6 yes "$pert_check" deck
echo 'NO 7' >wanted
combined pert_whatif lines 0 yes "$pert_whatif" deck
for program in "$pert_check" "$pert_whatif"; do
    name=$(basename "$program")
    "$program" refused <lines 2>told
    combined "$name, a refused deck" lines 1 no "$program" refused
    "$program" long <lines 2>told
    combined "$name, a deck that is too long" lines 1 no "$program" long
    "$program" 2>told
    combined "$name, no word" lines 2 no "$program"
    combined "$name, two words" lines 2 no "$program" deck deck
    combined "$name, no such deck" lines 4 no "$program" none.csv
    combined "$name, a folder as deck" lines 4 no "$program" .
done
rm long

# Wrong words are refused before anything is opened: a pipe that nobody writes to would block.
mkfifo pipe
for program in "$pert_check" "$pert_whatif"; do
    "$program" 2>told
    for words in 'pipe extra' 'extra pipe' 'pipe pipe' 'pipe extra extra'; do
        # shellcheck disable=SC2086
        timeout 60 "$program" $words <lines >out 2>err
        status=$?
        expect "$(basename "$program") $words" eval '[ "$status" -eq 2 ] && cmp -s err told && [ ! -s out ]'
    done
done

# A deck that changes while it is read, by turns: written over with another of the same length, cut in the middle, and appended to.
# Whatever is read, `check` accepts it and counts all its cards, or refuses it with one line.
"$pert" check <deck >wanted
sed 's/,0,0,0,2,1,0,/,0,0,0,3,2,0,/' deck >other
cp deck changing
(
    while [ ! -e enough ]; do
        dd if=other of=changing conv=notrunc status=none
        dd if=deck of=changing conv=notrunc status=none
        truncate -s $((RANDOM % size)) changing
        cp deck changing
    done
) &
writer=$!
whole=0
for ((turn = 0; turn < 60; turn++)); do
    "$pert" check <changing >out 2>err
    status=$?
    case $status in
        0) whole=$((whole + 1)); expect "a changing deck, accepted" eval 'cmp -s out wanted && [ ! -s err ]' ;;
        *) expect "a changing deck, refused" eval '[ "$status" -eq 1 ] && [ ! -s out ] && [ "$(wc -l <err)" -eq 1 ] && grep -q "^F[0-9]* record [0-9]*: " err' ;;
    esac
done
touch enough
wait "$writer"
status=$whole
expect 'a changing deck is sometimes whole' test "$whole" -ge 1

# A deck that was changed after its certificate was written.
"$pert_check" other <certificate >out 2>err
status=$?
expect 'a certificate of what the deck was' eval '[ "$status" -eq 6 ] && [ ! -s err ] && grep -q "^not certified line [0-9]* reason [0-9]*$" out'

echo "streams: $((tried - failed)) passed, $failed failed"
[ "$failed" -eq 0 ]

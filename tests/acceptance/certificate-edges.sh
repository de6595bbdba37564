# shellcheck shell=bash disable=SC2154,SC2034 # what is used here and not set is set by `run.sh`
# The cases of pert_check that no file can state; read by `run.sh`, which has `pert_check`, `scratch`, `want` and `judge`.

right_deck=$here/certificate/deck.csv
right_cert=$here/certificate/cert.txt

# A folder as standard input can't be read.
want 4 '' ''
"$pert_check" "$right_deck" <"$scratch" >"$scratch/stdout" 2>"$scratch/stderr"
echo $? >"$scratch/status"
judge 'the certificate is a folder'

# A certificate has no limit of its own: one of 67,108,865 bytes is refused for its first line, as a short one is.
want 6 'not certified line 1 reason 0\n' ''
head -c 67108865 /dev/zero | tr '\0' x | "$pert_check" "$right_deck" >"$scratch/stdout" 2>"$scratch/stderr"
echo $? >"$scratch/status"
judge 'a certificate of 67,108,865 bytes'

# If a deck is refused, the certificate is not read: what follows on the input is complete.
want 1 "$(cat "$right_cert")\n" 'F12 record 1: no END\n'
(
    "$pert_check" /dev/null 2>"$scratch/stderr"
    echo $? >"$scratch/status"
    cat
) <"$right_cert" >"$scratch/stdout"
judge 'the certificate of a refused deck'

# A full device takes nothing, and neither does a closed output.
if [ -e /dev/full ]; then
    want 5 '' ''
    for text in "$right_cert" /dev/null; do
        "$pert_check" "$right_deck" <"$text" >/dev/full 2>"$scratch/stderr"
        echo $? >"$scratch/status"
        : >"$scratch/stdout"
        judge "the verdict on a full device, of $(basename "$text")"
    done
    want 5 '' ''
    "$pert_check" <"$right_cert" >"$scratch/stdout" 2>/dev/full
    echo $? >"$scratch/status"
    : >"$scratch/stderr"
    judge 'the usage line on a full device'
fi
want 5 '' ''
"$pert_check" "$right_deck" <"$right_cert" >&- 2>"$scratch/stderr"
echo $? >"$scratch/status"
: >"$scratch/stdout"
judge 'the verdict on a closed output'

# A closed standard input can't be read, even though the deck's file gets its number while it is open.
want 4 '' ''
"$pert_check" "$right_deck" <&- >"$scratch/stdout" 2>"$scratch/stderr"
echo $? >"$scratch/status"
judge 'the certificate on a closed input'

# Two words are refused before the first is opened: a pipe that nobody writes to would block.
mkfifo "$scratch/certificate-pipe"
want 2 '' 'usage: pert_check DECK\n'
timeout 60 "$pert_check" "$scratch/certificate-pipe" extra <"$right_cert" >"$scratch/stdout" 2>"$scratch/stderr"
echo $? >"$scratch/status"
judge 'a pipe and another word'

# The deck may be a pipe, and a word that is not UTF-8 names none.
want 0 'certified 2\n' ''
"$pert_check" <(cat "$right_deck") <"$right_cert" >"$scratch/stdout" 2>"$scratch/stderr"
echo $? >"$scratch/status"
judge 'the deck is a pipe'

want 2 '' 'usage: pert_check DECK\n'
"$pert_check" $'\xff' <"$right_cert" >"$scratch/stdout" 2>"$scratch/stderr"
echo $? >"$scratch/status"
judge 'the name of the deck is not UTF-8'

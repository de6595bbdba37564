#!/usr/bin/env bash
# Checks the command of docs/deck.md that finds the line of a record: it finds it whatever is above. If the records above have no fault,
# `pert` reports the record by that number.
#
#   tests/docs/record-lines.sh [FOLDER]     FOLDER: where the programs are (default: as `rt ci` leaves them)
#
# Each row has what follows the PROJECT card, up to the record of kind XX; that record's number; and whether `pert` reports it.
set -u
top=$(cd "$(dirname "$0")/../.." && pwd)
pert=${1:+$(cd "$1" && pwd)/pert}
pert=${pert:-$top/crates/pert/out/pert}
[ -x "$pert" ] || { echo "docs: no program at $pert (run 'make' or 'rt ci' first)"; exit 1; }
scratch=$(mktemp -d) || exit 1
trap 'rm -rf "$scratch"' EXIT
recipe=$(sed -n 's/^    \$ \(awk -v r=\)[0-9]*\( .*\) [^ ]*$/\1RECORD\2/p' "$top/docs/deck.md")
cd "$top" || exit 1
passed=0
failed=0
while IFS='|' read -r above record told; do
    printf 'PROJECT,E,S,T,2024-01-01,1,,\n%bXX,\n' "$above" >"$scratch/deck"
    wanted=$(grep -n '^XX' "$scratch/deck" | sed 's/:/: /')
    found=$(eval "${recipe/RECORD/$record}" '"$scratch/deck"')
    answer=$("$pert" check <"$scratch/deck" 2>&1)
    case $told in yes) line="F4 record $record: unknown kind" ;; *) line=$answer ;; esac
    if [ -n "$recipe" ] && [ "$found" = "$wanted" ] && [ "$answer" = "$line" ]; then
        passed=$((passed + 1))
    else
        failed=$((failed + 1))
        echo "FAILED record lines: record $record after '$above': wanted line $wanted, found $found; pert says $answer"
    fi
done <<'ROWS'
|2|yes
\n|2|yes
\r\n\r\n|2|yes
,,\n|3|yes
EVENT,A,\r\n\r\nEVENT,B,\n|4|yes
EVENT,A,"5"" pipe"\n|3|yes
EVENT,A,5" pipe\n|3|yes
EVENT,A,5"\nEVENT,B,"x,"" y"\n|4|yes
EVENT,"A""",\n|3|no
""\n|3|yes
"","",\n|3|yes
EVENT,A,"two\nlines"\n|3|no
EVENT,A,"two\r\nlines"\r\n|3|no
EVENT,A,"a blank\n\nline"\n|3|no
EVENT,A,"a quote""\n""and another"\n\n|3|no
EVENT,A,"""\n",\n|3|no
EVENT,A,"x"y"\nEVENT,B,\n|4|yes
 \n|3|no
ROWS
echo "record lines: $passed passed, $failed failed"
[ "$failed" -eq 0 ]

#!/usr/bin/env bash
# Runs what `make` shows at its end: the curve of the house, the verdict on its certificate, the page, and commands that are there. Without a library of
# the companion it says what is missing, and a program that does not certify is an error.
#
#   tests/building/first-run.sh [FOLDER]     FOLDER: where the programs are (default: as `rt ci` leaves them)
set -u
top=$(cd "$(dirname "$0")/../.." && pwd)
folder=${1:+$(cd "$1" && pwd)}
scratch=$(mktemp -d) || exit 1
trap 'rm -rf "$scratch"' EXIT
passed=0
failed=0

# expect NAME CONDITION..: the condition holds; else what was said follows
expect() {
    local name=$1
    shift
    if "$@"; then
        passed=$((passed + 1))
    else
        failed=$((failed + 1))
        echo "FAILED first-run: $name; what it said:"
        sed 's/^/    /' "$scratch/said"
        echo 'alone: tests/building/first-run.sh'
    fi
}

mkdir "$scratch/tree" "$scratch/tree/bin" "$scratch/tree/tools"
cp -r "$top/companion" "$top/examples" "$scratch/tree"
cp "$top/tools/first-run.sh" "$top/tools/packages.txt" "$scratch/tree/tools"
for program in pert pert_check pert_whatif; do
    built=${folder:-$top/crates/$program/out}/$program
    [ -x "$built" ] || { echo "first-run: no program at $built (run 'make' or 'rt ci' first)"; exit 1; }
    cp "$built" "$scratch/tree/bin"
done
cd "$scratch/tree" || exit 1
run() { tools/first-run.sh >"$scratch/said" 2>&1; }

run
expect 'it ends well' test $? -eq 0
expect 'it shows the curve' grep -qx '    35 12600 100' "$scratch/said"
expect 'and the verdict' grep -qx '    certified 5' "$scratch/said"
if grep -q '^The page' "$scratch/said"; then
    expect 'there is a page' grep -q '</html>' out/house.html
else
    expect 'a machine without the libraries is told so' grep -q '^No page was made' "$scratch/said"
fi
while read -r command; do expect "$command is there" test -x "$command"; done < <(grep -o 'companion/bin/[a-z-]*' "$scratch/said")
expect 'three commands come next' test "$(grep -c '^    companion/bin/' "$scratch/said")" -eq 3

printf '#!/bin/sh\necho "pert-report: the library jinja2 is missing: apt install python3-jinja2" >&2\nexit 2\n' >companion/bin/pert-report
chmod 755 companion/bin/pert-report
run
expect 'without a library it ends well too' test $? -eq 0
expect 'and says how to get it' grep -q 'apt install python3-jinja2' "$scratch/said"
expect 'and names what the commands need' grep -q 'python3-openpyxl' "$scratch/said"
printf '#!/bin/sh\necho "not certified line 3 reason 2"\nexit 6\n' >bin/pert_check
run
expect 'what is not certified is an error' test $? -ne 0

echo "first-run: $passed passed, $failed failed"
[ "$failed" -eq 0 ]

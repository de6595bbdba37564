#!/usr/bin/env bash
# Draws docs/shed.svg again from what the programs print, and compares.
#
#   tests/docs/figure.sh [FOLDER]     FOLDER: where the programs are (default: as `rt ci` leaves them)
set -u
top=$(cd "$(dirname "$0")/../.." && pwd)
folder=${1:+$(cd "$1" && pwd)}
scratch=$(mktemp -d) || exit 1
trap 'rm -rf "$scratch"' EXIT
for program in pert pert_check; do
    built=${folder:-$top/crates/$program/out}/$program
    [ -x "$built" ] || { echo "docs: no program at $built (run 'make' or 'rt ci' first)"; exit 1; }
    cp "$built" "$scratch"
done
if ! "$top/tools/shed-figure.py" "$scratch" >"$scratch/shed.svg" || ! cmp -s "$scratch/shed.svg" "$top/docs/shed.svg"; then
    echo "FAILED figure: draw it again and look at it: tools/shed-figure.py FOLDER >docs/shed.svg"
    diff "$scratch/shed.svg" "$top/docs/shed.svg" | head -n 6
    exit 1
fi
echo "figure: docs/shed.svg is what the programs say"

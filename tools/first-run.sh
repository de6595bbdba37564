#!/usr/bin/env bash
# Shows what the programs do, on the plan of a house: its curve, the verdict on its certificate, its page, and what to try next.
#
#   tools/first-run.sh [FOLDER]     FOLDER: where the programs are (default: bin)
#
# `make` calls it when the programs are built. The page goes to out/house.html.
set -u -o pipefail
cd "$(dirname "$0")/.." || exit 1
case ${1:-} in -h | --help) sed -n '2,/^set/s/^# \{0,1\}//p' tools/first-run.sh && exit 0 ;; esac
bin=${1:-bin}
deck=examples/house.csv
page=out/house.html

# shown COMMAND: the command and what it prints, indented
shown() {
    echo "    \$ $1"
    bash -o pipefail -c "$1" | sed 's/^/    /'
}

echo
echo "The plan of a house, $deck: each length in days, its least cost, and what one day less costs"
shown "$bin/pert curve < $deck" || exit 1
echo "The same curve with its proof, checked by a second program: no schedule is cheaper, at any length"
shown "$bin/pert certify < $deck | $bin/pert_check $deck" || exit 1

mkdir -p out
if said=$(companion/bin/pert-report "$deck" -o "$page" --bin "$bin" 2>&1); then
    echo "The page on which to choose a length, for your browser: $page"
elif [[ $said == *missing* || $said == *'not found'* ]]; then
    echo "No page was made, since the commands with a hyphen need Python 3.11 with $(sed -n 's/ *| *the companion.*//p' tools/packages.txt | paste -sd ' '):"
    echo "    ${said##*$'\n'}"
    echo "    As root, tools/setup installs these, and what make check needs."
else
    echo "$said" >&2
    exit 1
fi
echo "Next, with a plan of your own (MS Project's XML, Excel, CSV, Primavera P6, GanttProject):"
echo "    companion/bin/pert-import plan.xml -o plan.csv"
echo "    companion/bin/pert-schedule plan.csv --gantt"
echo "    companion/bin/pert-report plan.csv -o plan.html"

#!/usr/bin/env bash
# Checks the companion: layout, types, complexity, tests and their branch coverage.
#
#   companion/check.sh [FOLDER] [-- WORD..]     FOLDER: the programs (default: as `rt ci` leaves them); WORD: for pytest
#
# The tests run in up to four processes if pytest-xdist is there. What it needs is in tools/packages.txt; `tools/setup` installs it.
set -u
cd "$(dirname "$0")" || exit 1
case ${1:-} in -h | --help) sed -n '2,/^set/s/^# \{0,1\}//p' check.sh && exit 0 ;; esac
scratch=$(mktemp -d) || exit 1
trap 'rm -rf "$scratch"' EXIT
mkdir "$scratch/bin" "$scratch/python" || exit 1
folder=
if [ $# -gt 0 ] && [ "$1" != -- ]; then
    folder=$(cd .. && cd "$1" && pwd) || exit 2
    shift
fi
[ "${1:-}" != -- ] || shift
for program in pert pert_check pert_whatif; do
    built=${folder:+$folder/$program}
    built=${built:-$PWD/../crates/$program/out/$program}
    [ -x "$built" ] || { echo "companion: no program at $built (run 'make' or 'rt ci' first)"; exit 1; }
    ln -s "$built" "$scratch/bin/$program"
done
PATH="$scratch/bin:$PATH"
python=/usr/bin/python3
export PYTHONDONTWRITEBYTECODE=1
lint=too-complex,too-many-statements,line-too-long,unused-import,unused-variable,unused-argument

$python -m black --check -q src tests || { echo "companion: not in black's layout: black src tests"; exit 1; }
$python -m mypy --no-error-summary -p pert_companion || { echo "companion: types"; exit 1; }
MYPYPATH=src:tests $python -m mypy --no-error-summary tests || { echo "companion: types of the tests"; exit 1; }
$python -m pylint -sn --disable=all --enable=$lint src tests || { echo "companion: lint"; exit 1; }
if command -v tsc >/dev/null; then
    tsc --project jsconfig.json || { echo "companion: types of the page's scripts"; exit 1; }
else
    echo "companion: types of the page's scripts skipped, since tsc is missing"
fi

workers=()
if $python -c "import xdist" 2>/dev/null; then
    processors=$(nproc)
    workers=(-n "$((processors < 4 ? processors : 4))" --dist loadfile)
fi
# Each process of the tests measures what it covers, and begins by itself.
echo "import coverage; coverage.process_startup()" >"$scratch/python/sitecustomize.py"
export COVERAGE_PROCESS_START="$PWD/pyproject.toml" COVERAGE_FILE="$scratch/coverage"
PYTHONPATH="$scratch/python" $python -m pytest -q -p no:cacheprovider "${workers[@]}" "$@" || { echo "companion: tests"; exit 1; }
[ $# -eq 0 ] || exit 0
$python -m coverage combine -q || { echo "companion: nothing is covered"; exit 1; }
$python -m coverage report --skip-covered || { echo "companion: too little is covered"; exit 1; }
echo "companion: $($python -m coverage report | awk '/^TOTAL/ { print $NF }') of branches covered"

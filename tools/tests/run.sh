#!/usr/bin/env bash
# Checks the Python packages of tools/: layout, types, complexity and tests; and layout, types, length of functions and doc comments of
# the scripts that tools/tests/scripts lists.
#
#   tools/tests/run.sh [WORD..]     WORD: for pytest
#
# What it needs is in tools/packages.txt; `tools/setup` installs it.
set -u
cd "$(dirname "$0")/.." || exit 1
case ${1:-} in -h | --help) sed -n '2,/^set/s/^# \{0,1\}//p' tests/run.sh && exit 0 ;; esac
python=/usr/bin/python3
export PYTHONDONTWRITEBYTECODE=1
packages=(reading_list command_files doc_examples proving tests)
for tool in black mypy pylint pytest; do
    $python -c "import $tool" 2>/dev/null || { echo "tools: skipped, since $tool is missing"; exit 0; }
done
lint=too-complex,line-too-long,unused-import,unused-variable,unused-argument

$python -m black -l 100 --check -q "${packages[@]}" || { echo "tools: not in black's layout: black -l 100 ${packages[*]}"; exit 1; }
$python -m mypy --strict --no-error-summary --cache-dir=/dev/null "${packages[@]}" || { echo "tools: types"; exit 1; }
mapfile -t scripts <tests/scripts
(cd .. && $python -m black -l 100 --check -q "${scripts[@]}") || { echo "tools: not in black's layout: black -l 100 the files of tools/tests/scripts"; exit 1; }
# (two scripts of one name are two modules of one name, so each folder is a run of its own)
while read -r folder; do
    mapfile -t of_folder < <(grep "^$folder/[^/]*\$" tests/scripts)
    (cd .. && MYPYPATH=examples:tests/differential:tools $python -m mypy --strict --scripts-are-modules --no-error-summary --cache-dir=/dev/null "${of_folder[@]}") \
        || { echo "tools: types of the scripts in $folder"; exit 1; }
done < <(sed 's|/[^/]*$||' tests/scripts | sort -u)
$python -m pylint -sn --disable=all --load-plugins=pylint.extensions.mccabe --max-complexity=10 --max-line-length=100 --enable=$lint \
    "${packages[@]}" || { echo "tools: lint"; exit 1; }
$python -m pytest -q -p no:cacheprovider tests "$@"

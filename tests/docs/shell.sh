#!/usr/bin/env bash
# Checks every shell script of the repository with shellcheck: each finding fails. A finding that is right as it is has a directive with its reason.
#
#   tests/docs/shell.sh [FILE..]     all scripts that git tracks, or the files named
#
# A script is a file whose first line names bash or sh, or whose name ends with .bash; a part of tests/acceptance/run.sh; or the `mend` of a case.
set -u
cd "$(dirname "$0")/../.." || exit 1
case ${1:-} in -h | --help) sed -n '2,/^set/s/^# \{0,1\}//p' tests/docs/shell.sh && exit 0 ;; esac
if ! command -v shellcheck >/dev/null || ! command -v git >/dev/null || [ ! -e .git ]; then
    echo "shell: skipped, since shellcheck or git is missing"
    exit 0
fi
if [ $# -gt 0 ]; then
    scripts=("$@")
else
    # (crates/ has no script but is most of what git tracks)
    mapfile -t scripts < <(git ls-files -z -- . ':!crates' | xargs -0 awk '
        FNR == 1 { if (/^#!.*[\/ ](ba)?sh( |$)/ || /^# shellcheck shell=/ || FILENAME ~ /(\.bash|\/mend)$/) print FILENAME; nextfile }')
fi
[ ${#scripts[@]} -gt 0 ] || { echo "FAILED shell: no script found" && exit 1; }
failed=0
# The scripts without a first line that names a shell are read by bash.
for script in "${scripts[@]}"; do
    shell=()
    if [[ $(head -n 1 "$script") != '#!'* ]]; then shell=(-s bash); fi
    shellcheck -x -f gcc "${shell[@]}" -- "$script" || failed=$((failed + 1))
done
if [ "$failed" -gt 0 ]; then
    echo "FAILED shell: $failed of ${#scripts[@]} scripts have findings"
    exit 1
fi
echo "shell: shellcheck finds nothing in ${#scripts[@]} scripts"

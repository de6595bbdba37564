#!/usr/bin/env bash
# Checks the manual pages, and the one made from docs/deck.md, with `mandoc -T lint`: each message fails, a remark on style too.
#
#   tests/docs/manual.sh [PAGE..]     all pages of docs/man/ and pert-deck(5), or the files named
set -u
cd "$(dirname "$0")/../.." || exit 1
case ${1:-} in -h | --help) sed -n '2,/^set/s/^# \{0,1\}//p' tests/docs/manual.sh && exit 0 ;; esac
command -v mandoc >/dev/null || { echo "manual: skipped, since mandoc is missing"; exit 0; }
scratch=$(mktemp -d) || exit 1
trap 'rm -rf "$scratch"' EXIT
if [ $# -eq 0 ]; then
    tools/deck-page.awk docs/deck.md >"$scratch/pert-deck.5" || { echo "FAILED manual: tools/deck-page.awk ended with $?"; exit 1; }
    set -- docs/man/*.1 "$scratch/pert-deck.5"
fi
failed=0
for page; do
    said=$(mandoc -T lint -W style "$page" 2>&1) && [ -z "$said" ] && continue
    said=${said//mandoc: "$scratch"\//mandoc: }
    echo "$said"
    failed=$((failed + 1))
done
if [ "$failed" -gt 0 ]; then
    echo "FAILED manual: $failed of $# pages have findings"
    exit 1
fi
echo "manual: mandoc finds nothing in $# pages"

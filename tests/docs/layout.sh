#!/usr/bin/env bash
# Checks that each source is laid out as `rt fmt` writes it.
#
#   tests/docs/layout.sh [CRATE..]     all crates, or the crates named
#
# `rt ci` refuses a crate that is not, but looks only when the crates below are proved. This check works on a copy and changes no source.
set -u
cd "$(dirname "$0")/../.." || exit 1
case ${1:-} in -h | --help) sed -n '2,/^set/s/^# \{0,1\}//p' tests/docs/layout.sh && exit 0 ;; esac
command -v rt >/dev/null || { echo "layout: skipped, since rt is missing"; exit 0; }
if [ $# -eq 0 ]; then
    for crate in crates/*/; do set -- "$@" "$(basename "$crate")"; done
fi
for crate; do [ -d "crates/$crate" ] || { echo "layout: there is no crate $crate"; exit 2; }; done
copy=$(mktemp -d) || exit 1
trap 'rm -rf "$copy"' EXIT
mkdir "$copy/.git" "$copy/crates"
cp crates.txt "$copy" || exit 1
(cd crates && tar --exclude=out --exclude=must-fail -cf - "$@") | tar -xf - -C "$copy/crates" || exit 1
failed=0
for crate; do
    # `rt fmt` names each file that it changes
    said=$(cd "$copy/crates/$crate" && rt fmt 2>&1) || { echo "FAILED layout: crates/$crate: $said"; failed=$((failed + 1)); continue; }
    while IFS= read -r file; do
        echo "FAILED layout: crates/$crate/$file: run 'rt fmt' in crates/$crate"
        diff -u --label wanted --label got "$copy/crates/$crate/$file" "crates/$crate/$file" | head -n 20
        failed=$((failed + 1))
    done < <(sed -n 's/^rt: formatted //p' <<<"$said")
done
if [ "$failed" -eq 0 ]; then echo "layout: $# crates are laid out as rt fmt writes them"; else echo "layout: $failed failed"; fi
[ "$failed" -eq 0 ]

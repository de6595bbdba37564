#!/usr/bin/env bash
# Tries `make install` and `make uninstall` on a copy whose programs are stand-ins: whatever the umask is, the installed files have the same modes, and
# `make uninstall` leaves nothing. A prefix that the commands could not handle is refused before anything is written.
set -u
top=$(cd "$(dirname "$0")/../.." && pwd)
for tool in make git; do command -v $tool >/dev/null || { echo "install: skipped, since $tool is missing"; exit 0; }; done
scratch=$(mktemp -d) || exit 1
trap 'rm -rf "$scratch"' EXIT
passed=0
failed=0

# expect NAME CONDITION..: the condition holds
expect() {
    local name=$1
    shift
    if "$@"; then
        passed=$((passed + 1))
    else
        failed=$((failed + 1))
        printf 'FAILED install: %s\nalone: tests/building/install.sh\n' "$name"
    fi
}

# The copy has all files that git tracks, and programs that count as built.
copy=$scratch/copy
mkdir "$copy"
(cd "$top" && git ls-files -z | tar --null -T - -cf -) | tar -xf - -C "$copy"
mkdir "$copy/bin" "$copy/out"
for program in pert pert_check pert_whatif; do
    printf '#!/bin/sh\n' >"$copy/bin/$program"
    chmod 755 "$copy/bin/$program"
done
touch "$copy/out/built"

# listed FOLDER: each file and folder with its mode
listed() { (cd "$1" && find . -mindepth 1 -printf '%p %m\n' | LC_ALL=C sort); }

for mask in 000 022 077; do
    (umask $mask && make -s -C "$copy" install PREFIX="$scratch/$mask") >"$scratch/$mask.txt" 2>&1
    expect "make install under umask $mask ends well" test $? -eq 0
    listed "$scratch/$mask" >"$scratch/$mask.modes"
done
share=$scratch/022/share
for file in bash-completion/completions/pert zsh/site-functions/_pert fish/vendor_completions.d/pert.fish man/man1/pert.1 doc/pert/docs/deck.md; do
    expect "$file is installed" test -s "$share/$file"
done
for file in CONTRIBUTING.md docs/gate.md docs/report; do expect "$file is not" test ! -e "$share/doc/pert/$file"; done
expect "debian/changelog begins with this version" test "$(sed -n '1s/^pert (\(.*\)-[^-]*) .*/\1/p' "$top/debian/changelog")" = "$(cat "$top/VERSION")"
expect "something is installed" test "$(wc -l <"$scratch/022.modes")" -gt 40
for mask in 000 077; do
    expect "modes under umask $mask are those under 022" cmp -s "$scratch/022.modes" "$scratch/$mask.modes"
done
expect "no file is writable for others" test -z "$(awk '$2 !~ /^(755|644)$/' "$scratch/022.modes")"

make -s -C "$copy" uninstall PREFIX="$scratch/022" >/dev/null 2>&1
expect "make uninstall ends well" test $? -eq 0
expect "and leaves nothing" test -z "$(listed "$scratch/022" 2>/dev/null)"

# The second checker is installed with its page and completion where it is built, and then there is nothing else more.
cp "$copy/bin/pert" "$copy/bin/pert-recheck"
make -s -C "$copy" install PREFIX="$scratch/second" >"$scratch/second.txt" 2>&1
expect "make install ends well with the second checker" test $? -eq 0
listed "$scratch/second" >"$scratch/second.modes"
printf '%s\n' './bin/pert-recheck 755' './share/bash-completion/completions/pert-recheck 644' \
    './share/fish/vendor_completions.d/pert-recheck.fish 644' './share/man/man1/pert-recheck.1 644' >"$scratch/second.wanted"
expect "it adds its four files" cmp -s "$scratch/second.wanted" <(comm -13 "$scratch/022.modes" "$scratch/second.modes")
make -s -C "$copy" uninstall PREFIX="$scratch/second" >/dev/null 2>&1
expect "make uninstall leaves nothing of it" test -z "$(listed "$scratch/second" 2>/dev/null)"
touch "$scratch/077/share/kept"
make -s -C "$copy" uninstall PREFIX="$scratch/077" >/dev/null 2>&1
expect "but what others put there" test "$(listed "$scratch/077" | awk '{print $1}' | paste -sd ' ')" = "./share ./share/kept"

for prefix in 'a"b' "$scratch/100%" "$scratch/a\\b"; do
    make -s -C "$copy" install PREFIX="$prefix" >"$scratch/refused.txt" 2>&1
    expect "the prefix $prefix is refused" test $? -ne 0 -a "$(grep -c 'PREFIX must not' "$scratch/refused.txt")" -eq 1
done
expect "before anything is written" test ! -e "$scratch/100%"

echo "install: $passed passed, $failed failed"
[ "$failed" -eq 0 ]

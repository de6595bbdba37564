#!/usr/bin/env bash
# Tries `make` on copies of its files with a program of one small crate: it builds what is proved, and never leaves an older
# program behind as if it were newly proved, neither if a source is broken nor if there is no `rt`. What it proved is not proved again by
# `rt check` or `make`. Two users build two copies at once.
set -u
top=$(cd "$(dirname "$0")/../.." && pwd)
if ! command -v rt >/dev/null || ! command -v make >/dev/null; then
    echo "building: skipped, since rt or make is missing"
    exit 0
fi
scratch=$(mktemp -d) || exit 1
trap 'rm -rf "$scratch"' EXIT
passed=0
failed=0

# expect NAME CONDITION..: the condition holds; else the end of what `make` said, in the file $said, follows
said=/dev/null
expect() {
    local name=$1
    shift
    if "$@"; then
        passed=$((passed + 1))
        return
    fi
    failed=$((failed + 1))
    echo "FAILED building: $name; the end of make's output:"
    tail -n 20 "$said" | cut -c 1-200 | sed 's/^/    /'
    echo "alone: tests/building/run.sh"
}

# copy_to FOLDER: what `make` needs, with one small crate and no source yet
copy_to() {
    mkdir -p "$1/crates/pert/src" "$1/crates/pert/specs" "$1/crates/pert/proofs" "$1/tools"
    cp "$top/Makefile" "$top/VERSION" "$1"
    cp -r "$top/tools/prove.py" "$top/tools/proving" "$1/tools"
    git init -q "$1"
    echo 'pert:' >"$1/crates.txt"
    : >"$1/crates/pert/specs/Lib.antt"
    : >"$1/crates/pert/proofs/Lib.antt"
    echo 42 >"$1/crates/pert/stdout"
}

# source_of DIVISOR: the program; it is proved where the divisor is 2
source_of() {
    cat <<END
//! A small program.
#![tactic(auto)]

ghost use Rattle.std.specs.Prelude.{◌<◌};

use std::io;

/// Half of a number.
fn half(n: u32) -> u32
    requires { n < 1000 }
    ensures { result < 500 }
{
    n / $1
}

fn main(rt: HostRuntime) -> io::Result<()> {
    println!(rt; "{}", half(84))
}
END
}

# as_another COMMAND..: run by another user where this one is root, else by this one
as_another() {
    if [ "$(id -u)" -eq 0 ] && command -v runuser >/dev/null; then runuser -u nobody -- "$@"; else "$@"; fi
}

# Three copies at once: a sound one; a sound one of another user; and a broken one, in which an earlier `make` has left a program.
copy="$scratch/a copy"
broken=$scratch/broken
other=$scratch/another
for it in "$copy" "$broken" "$other"; do
    copy_to "$it"
    source_of 2 >"$it/crates/pert/src/main.rt"
done
mkdir -p "$broken/bin" "$broken/out" "$broken/crates/pert/out"
for it in "$broken/bin/pert" "$broken/crates/pert/out/pert"; do
    printf '#!/bin/sh\necho 41\n' >"$it"
    chmod 755 "$it"
done
touch "$broken/out/built"
source_of 1 >"$broken/crates/pert/src/main.rt"
chmod 755 "$scratch"
[ "$(id -u)" -ne 0 ] || chown -R nobody "$other"

# newer COPY: its source is newer than its program, by the clock of the files
newer() {
    until [ "$1/crates/pert/src/main.rt" -nt "$1/bin/pert" ] && [ "$1/crates/pert/src/main.rt" -nt "$1/out/built" ]; do
        sleep 0.1
        touch "$1/crates/pert/src/main.rt"
    done
}
newer "$broken"
made() { make -C "$1" programs PROGRAMS=pert >"$1.txt" 2>&1; }
made "$broken" &
of_broken=$!
as_another make -C "$other" programs PROGRAMS=pert >"$other.txt" 2>&1 &
of_other=$!
made "$copy"
status=$?
said=$copy.txt
expect "a proved program is built" test $status -eq 0
expect "and it runs" test "$("$copy/bin/pert")" = 42
(cd "$copy/crates/pert" && rt check) >"$scratch/check.txt" 2>&1
said=$scratch/check.txt
expect "a check after it proves nothing again" grep -q '^crate pert: .* checked=0$' "$said"
touch "$copy/crates/pert/src/main.rt"
rm "$copy/out/built"
made "$copy"
said=$copy.txt
expect "nor does make, where nothing has changed" grep -q '^nothing has changed' "$said"
expect "which leaves the program" test "$("$copy/bin/pert")" = 42
wait $of_other
status=$?
said=$other.txt
expect "at the same time another user builds a copy of his own" test $status -eq 0
expect "and it runs" test "$("$other/bin/pert")" = 42
wait $of_broken
status=$?
said=$broken.txt
expect "a source that is not proved ends with a fault" test $status -ne 0
expect "and leaves no program" test ! -e "$broken/bin/pert"

source_of 2 >"$broken/crates/pert/src/main.rt"
made "$broken"
expect "a fixed source is built again" test "$("$broken/bin/pert")" = 42

cd "$copy" || exit 1
said=$copy.txt
newer .
mkdir tools-only
for tool in bash sh env make find cat cp rm mkdir touch; do
    ln -s "$(command -v $tool)" tools-only/ 2>/dev/null
done
ln -s "$(python3 -c 'import sys; print(sys.executable)')" tools-only/python3
PATH="$copy/tools-only" make programs PROGRAMS=pert >"$said" 2>&1
expect "without rt it ends with a fault" test $? -ne 0
expect "says so" grep -q "no 'rt' on the path" "$said"
expect "and leaves no program" test ! -e bin/pert
rm tools-only/python3
PATH="$copy/tools-only" make programs PROGRAMS=pert >"$said" 2>&1
expect "without python3 it ends with a fault" test $? -ne 0
expect "says so too" grep -q "no 'python3' on the path" "$said"

echo "building: $passed passed, $failed failed"
[ "$failed" -eq 0 ]

#!/usr/bin/env bash
# Checks what the built programs need of a machine: the libraries of glibc and GCC that every such system has, no symbol newer than
# glibc 2.34, and no instruction that a processor of the level x86-64-v2 lacks. The second checker, if `make recheck` has built it, needs no library.
#
#   tests/building/needs.sh [FOLDER]     FOLDER: where the programs are (default: as `rt ci` leaves them)
#
# With an older C library the loader ends a program with status 1, which is also the status for a refused deck.
set -u
export LC_ALL=C
newest=2.34
top=$(cd "$(dirname "$0")/../.." && pwd)
folder=${1:+$(cd "$1" && pwd)}
command -v objdump >/dev/null || { echo "needs: skipped, since objdump is missing"; exit 0; }
scratch=$(mktemp -d) || exit 1
trap 'rm -rf "$scratch"' EXIT
failed=0

# fail NAME TEXT: reports what a program needs and should not
fail() {
    echo "FAILED needs: $1: $2"
    failed=$((failed + 1))
}

# mnemonics PROGRAM: the names of its instructions, each once
mnemonics() { objdump -d --no-show-raw-insn "$1" | awk '$1 ~ /:$/ { seen[$2] } END { for (name in seen) print name }'; }

for name in pert pert_check pert_whatif; do
    program=${folder:-$top/crates/$name/out}/$name
    [ -x "$program" ] || { echo "needs: no program at $program (run 'make' or 'rt ci' first)"; exit 1; }
    objdump -T "$program" >"$scratch/symbols" || exit 1
    objdump -p "$program" >"$scratch/header" || exit 1
    mnemonics "$program" >"$scratch/instructions"

    last=$(grep -o 'GLIBC_[0-9][0-9.]*' "$scratch/symbols" | sed 's/GLIBC_//' | sort -V | tail -n 1)
    if [ -z "$last" ]; then
        fail "$name" "no symbol of glibc is listed"
    elif [ "$(printf '%s\n' "$last" "$newest" | sort -V | tail -n 1)" != "$newest" ]; then
        fail "$name" "needs glibc $last: $(grep -F "GLIBC_$last)" "$scratch/symbols" | awk '{ print $NF }' | tr '\n' ' ')"
    fi
    ! grep -q GLIBC_PRIVATE "$scratch/symbols" || fail "$name" "uses a private symbol of glibc"

    others=$(awk '$1 == "NEEDED" { print $2 }' "$scratch/header" | grep -vxE 'lib(c|m)\.so\.6|libgcc_s\.so\.1' | tr '\n' ' ')
    [ -z "$others" ] || fail "$name" "needs other libraries: $others"

    # Instructions of AVX begin with v; the others are those that x86-64-v3 adds. `tzcnt` is not among them, since compilers write it
    # for `bsf`, which gives the same result where the operand is not 0.
    above=$(grep -E '^(v[a-z0-9]+|(andn|bextr|blsi|blsmsk|blsr|bzhi|lzcnt|movbe|mulx|pdep|pext|rorx|sarx|shlx|shrx)[bwlq]?)$' "$scratch/instructions" |
        grep -vxE 'ver[rw]' | sort | tr '\n' ' ')
    [ -z "$above" ] || fail "$name" "has instructions that x86-64-v2 lacks: $above"
    grep -qE '^ret' "$scratch/instructions" || fail "$name" "no instruction is listed"
done

# Its C library chooses among instructions by the processor on which it runs, so that they say nothing.
recheck=$top/bin/pert-recheck
second='pert-recheck is not built'
if [ -x "$recheck" ]; then
    second='pert-recheck needs no library'
    objdump -p "$recheck" >"$scratch/header" || exit 1
    ! grep -qE '^ *(INTERP|NEEDED|DYNAMIC) ' "$scratch/header" || fail pert-recheck 'is not linked statically'
    grep -q '^ *LOAD ' "$scratch/header" || fail pert-recheck 'no part that is loaded is listed'
    objdump -t "$recheck" 2>/dev/null | grep -q '^no symbols' || fail pert-recheck 'has symbols that nobody needs'
fi

[ "$failed" -ne 0 ] || echo "needs: the programs need glibc $newest at most, no other library, and no instruction above x86-64-v2; $second"
[ "$failed" -eq 0 ]

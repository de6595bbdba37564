#!/usr/bin/env bash
# Proves the checker and builds out/recheck/pert-recheck from it: `make recheck` calls this.
#
# The proof must rest on no axiom. The program is linked statically, so that it needs no library.
set -eu
cd "$(dirname "$0")"
for tool in coqc ocamlfind; do
    command -v "$tool" >/dev/null || { echo "recheck: there is no '$tool' on the path; tools/packages.txt says what it comes with" >&2 && exit 1; }
done
mkdir -p ../out/recheck
cp ./*.v main.ml ../out/recheck
cd ../out/recheck
fail() {
    echo "recheck: $1" >&2
    cat said >&2
    exit 1
}
for file in Model Segment Certificate Table Check Taken Sound Text Unique Reader Program Shed Statement Extract; do
    coqc -q -Q . Recheck "$file.v" >said 2>&1 || fail "$file.v is not proved:"
    [ "$file" != Statement ] || cp said axioms
done
[ "$(cat axioms)" = 'Closed under the global context' ] || { cp axioms said && fail 'the proof rests on axioms:'; }
ocamlfind ocamlopt -package zarith,unix -linkpkg -w -a -inline 200 -ccopt "-static -s" recheck.mli recheck.ml main.ml -o pert-recheck >said 2>&1 ||
    fail 'the program is not built:'
echo "recheck: proved, $(cat axioms), and built"

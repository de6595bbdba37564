#!/usr/bin/env bash
# Runs each command in the documents and manual pages, and compares what it prints with what the page shows: in the repository, and as
# `make install` leaves the pages below a fresh prefix.
#
#   tests/docs/commands.sh [FOLDER] [DOCUMENT..]     FOLDER: the programs (default: as `rt ci` leaves them); DOCUMENT: as in docs/deck.md
#
# With DOCUMENT, only the commands of that document are run, in the repository, and nothing is installed.
#
# A command is a line of an indented text that begins with `$ `. The lines that follow, up to the next command or the end of the text, are
# what it prints on both outputs; a line `...` matches any lines. The commands of the repository run in a folder with a copy of the examples
# and with the programs in bin/, which is on the path too. Installed ones run in a copy of the installed documents, with the installed programs
# on the path. A command whose tool is missing is skipped, and so is one that needs a file that a skipped command of the document writes
# (`> NAME`, at its end); the tool is named.
set -u
top=$(cd "$(dirname "$0")/../.." && pwd)
folder=
if [ $# -gt 0 ] && [ -d "$1" ]; then
    folder=$(cd "$1" && pwd)
    shift
fi
scratch=$(mktemp -d) || exit 1
trap 'rm -rf "$scratch"' EXIT
mkdir -p "$scratch/clone/bin" "$scratch/docs"
read -r -a programs < <(sed -n 's/^PROGRAMS := //p' "$top/Makefile")
for program in "${programs[@]}"; do
    built=${folder:+$folder/$program}
    built=${built:-$top/crates/$program/out/$program}
    [ -x "$built" ] || { echo "docs: no program at $built (run 'make' or 'rt ci' first)"; exit 1; }
    cp "$built" "$scratch/clone/bin/"
done
[ ! -x "$top/bin/pert-recheck" ] || cp "$top/bin/pert-recheck" "$scratch/clone/bin/"
cp -r "$top"/{Makefile,VERSION,README.md,CONTRIBUTING.md,CHANGELOG.md,crates.txt,docs,examples,tools} "$scratch/clone"
mkdir "$scratch/clone/companion"
cp -r "$top"/companion/{bin,launch,src,pert-desk.desktop} "$scratch/clone/companion"
mkdir "$scratch/clone/crates"

# the commands of a document, each as `number-command` next to `number-wanted`
split() {
    awk -v out="$scratch/docs/" '
        /^    \$ / { n++; print substr($0, 7) >(out n "-command"); printf "" >(out n "-wanted"); taking = 1; next }
        /^    / && taking { print substr($0, 5) >(out n "-wanted"); next }
        { taking = 0 }' "$1"
}

# the texts of a manual page that are not filled, as a document has them
texts_of() {
    awk '
        /^\.nf/ { inside = 1 }
        /^\.fi/ { inside = 0 }
        !inside || /^\./ { print ""; next }
        { gsub(/\\f[BIR]/, ""); gsub(/\\-/, "-"); sub(/^\\&/, ""); gsub(/\\e/, "\\"); print "    " $0 }' "$1"
}

# same WANTED PRINTED: whether they are equal, where a line `...` of the first matches any lines
same() {
    awk '
        NR == FNR { want[++w] = $0; next }
        { got[++g] = $0 }
        END {
            at = 1
            for (i = 1; i <= w; i++) {
                if (want[i] != "...") { if (at > g || got[at] != want[i]) exit 1; at++; continue }
                if (i == w) exit 0
                while (at <= g && got[at] != want[i + 1]) at++
            }
            exit at <= g
        }' "$1" "$2"
}

passed=0
failed=0
skipped=0
declare -A missing

# wants COMMAND: the missing tool that a command needs, itself or for a file in `lost`, which a skipped command would have written
wants() {
    local tool file
    for tool in mlr python3 zstd iconv sqlite3 csvformat ssconvert pert-recheck; do
        if grep -qw -- "$tool" "$1" && ! command -v "$tool" >/dev/null; then echo "$tool"; return; fi
    done
    for file in "${!lost[@]}"; do
        if grep -qwF -- "$file" "$1"; then echo "${lost[$file]}"; return; fi
    done
}

# try NAME DOCUMENT: runs the commands of a document in this folder
try() {
    local n tool written
    local -A lost=()
    rm -f "$scratch"/docs/*
    split "$2"
    for ((n = 1; ; n++)); do
        [ -f "$scratch/docs/$n-command" ] || break
        tool=$(wants "$scratch/docs/$n-command")
        if [ -n "$tool" ]; then
            skipped=$((skipped + 1))
            missing[$tool]=yes
            written=$(sed -n 's/.*> \([a-z-]*\.[a-z]*\)$/\1/p' "$scratch/docs/$n-command")
            if [ -n "$written" ]; then lost[$written]=$tool; fi
            continue
        fi
        bash "$scratch/docs/$n-command" >"$scratch/printed" 2>&1 </dev/null
        if ! same "$scratch/docs/$n-wanted" "$scratch/printed"; then
            failed=$((failed + 1))
            echo "FAILED docs: $1: $(cat "$scratch/docs/$n-command")"
            diff -u --label wanted --label got "$scratch/docs/$n-wanted" "$scratch/printed" | head -n 12 | cut -c 1-160
            case $1 in *.md) echo "alone: tests/docs/commands.sh ${1#installed }" ;; esac
        else
            passed=$((passed + 1))
        fi
    done
}

cd "$scratch/clone" || exit 1
usual=$PATH
PATH="$scratch/clone/bin:$scratch/clone/companion/bin:$usual"
if [ $# -gt 0 ]; then
    for document; do
        [ -f "$document" ] || { echo "docs: there is no document $document"; exit 2; }
        try "$document" "$document"
    done
    echo "docs: $passed passed, $failed failed, $skipped skipped${missing[*]:+ without ${!missing[*]}}"
    exit $((failed > 0))
fi
for document in README.md docs/*.md; do try "$document" "$document"; done
PATH=$usual
# each picture is shown
for kept in docs/*.png docs/*.svg; do
    if ! grep -qF -- "](${kept#docs/})" docs/*.md && ! grep -qF -- "]($kept)" README.md; then
        echo "FAILED: no document shows $kept"
        failed=$((failed + 1))
    fi
done

command -v make >/dev/null || { echo "docs: $passed passed, $failed failed, $skipped skipped${missing[*]:+ without ${!missing[*]}}; nothing installed, since make is missing"; exit $((failed > 0)); }
prefix="$scratch/a prefix & more"
# the programs are built, so that nothing is to be proved
keep=()
for program in "${programs[@]}"; do keep+=(-o "bin/$program"); done
if ! make -s "${keep[@]}" install PREFIX="$prefix" >"$scratch/printed" 2>&1; then
    echo "FAILED make install: $(tail -n 1 "$scratch/printed")"
    exit 1
fi
cp -r "$prefix/share/doc/pert" "$scratch/installed"
cd "$scratch/installed" || exit 1
PATH="$prefix/bin:$usual"
before=$passed
for document in README.md docs/*.md; do try "installed $document" "$document"; done
for page in "$prefix"/share/man/man?/*; do
    texts_of "$page" >"$scratch/page"
    try "${page##*/}" "$scratch/page"
done
PATH=$usual
echo "docs: of $passed, $((passed - before)) as installed"
if grep -rIl '@[A-Z]*@' "$prefix/share"; then
    echo "FAILED: these pages name no version or place"
    failed=$((failed + 1))
fi
# each page that a page links is installed
for document in "$prefix"/share/doc/pert/README.md "$prefix"/share/doc/pert/docs/*.md; do
    while IFS= read -r page; do
        [ -e "${document%/*}/$page" ] || { echo "FAILED: ${document##*/} links $page, which is not there"; failed=$((failed + 1)); }
    done < <(grep -o '](\([^):#]*\))' "$document" | sed 's/^](//; s/)$//')
done
# each form that the usage line names has its entry in the manual page, and is completed
for form in $("$prefix/bin/pert" 2>&1 | sed 's/^usage: pert //' | tr '|' '\n' | awk '{ print $1 }'); do
    if ! grep -q "^\.B[IR]* \"*$form\b" <(sed -n '/^\.SH FORMS/,/^\.SH THE DECK/p' "$prefix/share/man/man1/pert.1") ||
        ! grep -qw "$form" "$prefix/share/bash-completion/completions/pert"; then
        echo "FAILED: the form $form has no entry in the manual page, or no completion"
        failed=$((failed + 1))
    fi
done
cd "$scratch/clone" || exit 1
make -s uninstall PREFIX="$prefix"
left=$(find "$prefix" -type f)
[ -z "$left" ] || { echo "FAILED make uninstall leaves $left"; failed=$((failed + 1)); }

echo "docs: $passed passed, $failed failed, $skipped skipped${missing[*]:+ without ${!missing[*]}}"
[ "$failed" -eq 0 ]

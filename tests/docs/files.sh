#!/usr/bin/env bash
# Each document and example that git tracks is in one of two lists: tools/installed, which `make install`, `make dist` and `make deb` take, or
# tools/not-installed: pages for those who change the programs, and pictures that no page shows. No file is a link.
cd "$(dirname "$0")/../.." || exit 1
if ! command -v git >/dev/null || [ ! -e .git ]; then
    echo "files: skipped, since this is no checkout of git"
    exit 0
fi
if ! diff -u --label 'git tracks' --label 'the lists' <(git ls-files docs examples | LC_ALL=C sort) <(LC_ALL=C sort tools/installed tools/not-installed); then
    echo "FAILED files: name each file once, in tools/installed or in tools/not-installed"
    exit 1
fi
# `rt ci` stops at a link before it proves anything.
links=$(git ls-files -s | sed -n 's/^120000 [^\t]*\t//p')
if [ -n "$links" ]; then
    echo "FAILED files: put the file itself in place of each link: ${links//$'\n'/ }"
    exit 1
fi
echo "files: $(wc -l <tools/installed) documents and examples are installed, $(wc -l <tools/not-installed) are not"

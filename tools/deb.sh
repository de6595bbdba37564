#!/usr/bin/env bash
# Builds the Debian packages of debian/ into out/, and prints their checksums. `make deb` calls it when the programs are built.
set -u
cd "$(dirname "$0")/.." || exit 1
for tool in dh dh_python3 dpkg-deb; do
    command -v $tool >/dev/null || { echo "make: there is no '$tool' on the path; tools/packages.txt says what it comes with" >&2 && exit 1; }
done
upstream=$(sed -n '1s/^pert (\(.*\)-[^-]*) .*/\1/p' debian/changelog)
if [ "$upstream" != "$(cat VERSION)" ]; then
    echo "make: the newest entry of debian/changelog is of $upstream, and VERSION has $(cat VERSION)" >&2
    exit 1
fi
umask 022
mkdir -p out
rm -f out/*.deb
debian/rules clean >/dev/null 2>&1
if ! DEB_RULES_REQUIRES_ROOT=no debian/rules binary DEBS=out >out/deb.log 2>&1; then
    echo "make: the packages were not built; the end of out/deb.log says why:" >&2
    tail -n 20 out/deb.log >&2
    exit 1
fi
debian/rules clean >/dev/null 2>&1
sha256sum out/*.deb

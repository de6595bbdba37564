#!/usr/bin/env bash
# Tries `make deb` on two copies, in other places, at other times, under other umasks, locales and time zones: the packages are the same bytes.
# `lintian` finds no error and no warning in them. dpkg installs them below a folder, with the packages of this machine as what they depend on;
# each program and command runs from there as a user who is not root; and when they are removed, nothing is left.
#
#   tests/building/package.sh [FOLDER]     FOLDER: where the programs are (default: as `rt ci` leaves them)
#
# The second checker is taken from bin/, where `make recheck` leaves it.
# What is tried depends on debhelper and lintian (tools/packages.txt); without lintian that step is left out, by name.
# `tests/building/chroots.sh` tries the same packages on a bare Debian.

# shellcheck disable=SC2016 # `expect` evaluates its conditions, which are therefore in single quotes
set -u
export LC_ALL=C
top=$(cd "$(dirname "$0")/../.." && pwd)
case ${1:-} in -h | --help) sed -n '2,/^set/s/^# \{0,1\}//p' "$top/tests/building/package.sh" && exit 0 ;; esac
folder=${1:+$(cd "$1" && pwd)}
for tool in make dh dh_python3 git; do
    command -v "$tool" >/dev/null || { echo "package: skipped, since $tool is missing"; exit 0; }
done
if [ ! -x "$top/bin/pert-recheck" ]; then
    command -v coqc >/dev/null || { echo "package: skipped, since coqc is missing, which builds the second checker"; exit 0; }
    echo "package: no program at $top/bin/pert-recheck (run 'make recheck' first)"
    exit 1
fi
scratch=$(mktemp -d) || exit 1
chmod 755 "$scratch"
trap 'rm -rf "$scratch"' EXIT
passed=0
failed=0

# expect NAME CONDITION..: the condition holds
expect() {
    local name=$1
    shift
    if "$@"; then
        passed=$((passed + 1))
    else
        failed=$((failed + 1))
        printf 'FAILED package: %s\nalone: tests/building/package.sh\n' "$name"
    fi
}

# copy NAME: a copy of all files that git tracks, with the programs, which count as built
copy() {
    local to=$scratch/$1 program built
    mkdir -p "$to"
    (cd "$top" && git ls-files -z | tar --null -T - -cf -) | tar -xmf - -C "$to"
    mkdir "$to/bin" "$to/out"
    for program in pert pert_check pert_whatif; do
        built=${folder:-$top/crates/$program/out}/$program
        [ -x "$built" ] || { echo "package: no program at $built (run 'make' or 'rt ci' first)"; exit 1; }
        cp "$built" "$to/bin/"
    done
    cp "$top/bin/pert-recheck" "$to/bin/"
    touch "$to/out/built"
}
copy first
copy a-second-place/of-the-sources
(umask 022 && make -s -C "$scratch/first" deb) >"$scratch/said" 2>&1
expect 'make deb ends well' test $? -eq 0
second=$scratch/a-second-place/of-the-sources
find "$second" -exec touch -h -d 2001-02-03 {} + && touch "$second/out/built"
(umask 077 && LC_ALL=C.UTF-8 TZ=Asia/Tokyo make -s -C "$second" deb) >>"$scratch/said" 2>&1
expect 'make deb ends well in another place' test $? -eq 0
names=$(cd "$scratch/first/out" && echo *.deb)
version=$(sed -n '1s/^pert (\(.*\)) .*/\1/p' "$top/debian/changelog")
if [ "$names" != "pert-companion_${version}_all.deb pert-doc_${version}_all.deb pert_${version}_amd64.deb" ]; then
    tail -n 5 "$scratch/said"
    echo "FAILED package: what was built is $names"
    exit 1
fi
expect 'the copies have the same packages' test "$(cd "$second/out" && echo *.deb)" = "$names"
for name in $names; do expect "$name: the same bytes in both" cmp "$scratch/first/out/$name" "$second/out/$name"; done
expect 'nothing else is left in out/' test "$(cd "$second/out" && echo *)" = "built deb.log $names"
expect 'nor in debian/' test "$(cd "$second" && find debian -type f | sort)" = "$(cd "$top" && git ls-files debian | sort)"
packages=()
for name in $names; do packages+=("$scratch/first/out/$name"); done

# What they hold: the checksums are right, owners are root, and no file is writable for others.
for package in "${packages[@]}"; do
    name=${package##*/}
    held=$scratch/held/$name
    mkdir -p "$held" && dpkg-deb -R "$package" "$held"
    expect "$name: the checksums are right" eval '(cd "$held" && md5sum --quiet -c DEBIAN/md5sums)'
    dpkg-deb -c "$package" >"$scratch/list"
    expect "$name: owners are root, and modes 755 and 644" test -z "$(awk '$2 != "root/root" || $1 !~ /^(drwxr-xr-x|-rwxr-xr-x|-rw-r--r--)$/' "$scratch/list")"
done
held=$scratch/held/pert_${version}_amd64.deb
expect 'pert has no maintainer script' test "$(find "$held/DEBIAN" -type f -printf '%f\n' | sort | paste -sd ' ')" = 'control md5sums'
expect 'pert needs the C library alone, and the processor' test -z \
    "$(sed -n 's/^Depends: //p' "$held/DEBIAN/control" | tr -d ' ' | tr ',' '\n' | grep -vE '^(libc6|libgcc-s1)\(|^sse4\.2-support$')"

if command -v lintian >/dev/null; then
    lintian --allow-root --fail-on error,warning "${packages[@]}" >"$scratch/lintian" 2>&1 || { cat "$scratch/lintian"; false; }
    expect 'lintian finds no error and no warning' test $? -eq 0
else
    echo 'package: no lintian, so its check is left out'
fi

# user COMMAND..: runs a command as a user who is not root, with a home of its own
mkdir -m 777 "$scratch/home"
user() {
    local as=()
    if [ "$(id -u)" -eq 0 ]; then as=(setpriv --reuid 65534 --regid 65534 --clear-groups); fi
    (cd "$scratch/home" && "${as[@]}" env -i HOME="$scratch/home" LC_ALL=C PATH="$scratch/root/usr/bin:/usr/bin:/bin" "$@" </dev/null)
}

if command -v dpkg >/dev/null; then
    mkdir -p "$scratch/root/var/lib/dpkg/"{info,updates,triggers}
    # (a pert that is installed on this machine does not count)
    awk -v RS= -v ORS='\n\n' '!/^Package: pert(-[a-z]*)?\n/' /var/lib/dpkg/status >"$scratch/root/var/lib/dpkg/status"
    # This package has nothing but a test of the processor, and machines that build need not have it.
    printf 'Package: sse4.2-support\nStatus: install ok installed\nMaintainer: nobody\nArchitecture: amd64\nVersion: 0\nDescription: stand-in\n\n' \
        >>"$scratch/root/var/lib/dpkg/status"
    # The scripts of pert-companion would compile below this machine's own root.
    mkdir "$scratch/without"
    for tool in py3compile py3clean; do ln -s /bin/true "$scratch/without/$tool"; done
    deb() { PATH="$scratch/without:$PATH" dpkg --root="$scratch/root" --force-not-root,script-chrootless --log=/dev/null "$@"; }
    deb -i "${packages[@]}" >"$scratch/said" 2>&1 || { cat "$scratch/said"; false; }
    expect 'dpkg installs them, with all that they depend on' test $? -eq 0
    expect 'the user is not root' test "$(user id -u)" -ne 0
    cp "$top/examples/shed.csv" "$scratch/home/shed.csv" && chmod 644 "$scratch/home/shed.csv"
    expect 'pert' test "$(user sh -c 'pert curve <shed.csv')" = $'9 45 3\n7 51 7\n5 65 -'
    expect 'pert_check' test "$(user sh -c 'pert certify <shed.csv | pert_check shed.csv')" = 'certified 2'
    expect 'pert-recheck' test "$(user sh -c 'pert migrate <shed.csv >canonical.csv && pert certify <shed.csv | pert-recheck canonical.csv')" = 'certified 2'
    expect 'pert_whatif' test "$(user sh -c 'echo TRY A 4 2 2 6 | pert_whatif shed.csv')" = 'COST 56'
    for command in "$top"/companion/bin/*; do
        word=${command##*/}
        expect "$word --help" eval 'user "$word" --help >"$scratch/help" 2>&1 && grep -q "^usage: $word" "$scratch/help"'
    done
    expect 'pert-schedule makes a schedule with the programs next to it' eval 'user pert-schedule shed.csv >"$scratch/schedule" && [ -s "$scratch/schedule" ]'
    for page in "$scratch"/root/usr/share/man/man?/*.gz; do
        expect "the manual page ${page##*/} is compressed without a time" eval 'gzip -t "$page" && [ "$(od -An -tx1 -j4 -N4 "$page" | tr -d " ")" = 00000000 ]'
    done
    deb --purge pert-companion pert-doc pert >"$scratch/said" 2>&1
    expect 'dpkg removes them' test $? -eq 0
    expect 'and nothing is left' test -z "$(find "$scratch/root" -path "$scratch/root/var/lib/dpkg" -prune -o ! -type d -print)"
    expect 'no folder either' test ! -e "$scratch/root/usr/share/doc/pert" -a ! -e "$scratch/root/usr/lib/pert-companion"
fi

echo "package: $passed passed, $failed failed"
[ "$failed" -eq 0 ]

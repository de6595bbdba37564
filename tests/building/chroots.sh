#!/usr/bin/env bash
# Tries the packages of `make deb` on bare Debians, which have neither the kit nor Python: pert installs with nothing but what it names, the cases of
# tests/acceptance pass as a user who is not root, the companion's commands work, and when all is purged nothing is left.
#
#   tests/building/chroots.sh [SUITE..]     as root, after `make deb`; SUITE: bookworm, trixie (default: both)
#
# It needs mmdebstrap and Debian's mirror, and is no part of the gate.
set -u
cd "$(dirname "$0")/../.." || exit 1
case ${1:-} in -h | --help) sed -n '2,/^set/s/^# \{0,1\}//p' tests/building/chroots.sh && exit 0 ;; esac
[ $# -gt 0 ] || set -- bookworm trixie
command -v mmdebstrap >/dev/null || { echo "chroots: skipped, since mmdebstrap is missing"; exit 0; }
compgen -G 'out/pert_*.deb' >/dev/null || { echo "chroots: out/ has no package (run 'make deb' first)"; exit 1; }
scratch=$(mktemp -d) || exit 1
chmod 755 "$scratch"
trap 'rm -rf "$scratch"' EXIT
failed=0
# the packages that those of out/ depend on, apart from one another
needs=$(for package in out/*.deb; do dpkg-deb -f "$package" Depends; done | tr ',' '\n' | sed 's/^ *//; s/[: (].*//' | grep -vx pert | sort -u | paste -sd ' ')

# inside COMMAND..: runs a command in the chroot of this suite, with a /proc of its own
inside() { unshare --fork --pid --mount-proc="$root/proc" chroot "$root" env -i PATH=/usr/sbin:/usr/bin:/sbin:/bin LC_ALL=C.UTF-8 DEBIAN_FRONTEND=noninteractive "$@" </dev/null; }
# user COMMAND..: the same as a user who is not root
user() { inside setpriv --reuid 65534 --regid 65534 --clear-groups env HOME=/tmp/home AUTOPKGTEST_TMP=/tmp/home "$@"; }
# files: each file and folder of the chroot that packages may leave
files() { (cd "$root" && find etc opt srv usr var/lib -path var/lib/apt -prune -o -path var/lib/dpkg -prune -o -print | LC_ALL=C sort); }

# step NAME COMMAND..: runs a command, and says how it ended; its output follows if it failed
step() {
    local name=$1
    shift
    if "$@" >"$scratch/said" 2>&1; then
        echo "ok      $suite: $name$(tail -n 1 "$scratch/said" | sed -n 's/^\(acceptance: .*\)/ (\1)/p')"
    else
        failed=$((failed + 1))
        echo "FAILED  $suite: $name"
        tail -n 20 "$scratch/said" | sed 's/^/    /'
    fi
}

for suite; do
    root=$scratch/$suite
    step 'a bare system' mmdebstrap --quiet --variant=minbase "$suite" "$root" http://deb.debian.org/debian
    [ -x "$root/usr/bin/apt-get" ] || continue
    mkdir -p "$root/packages" "$root/tmp/tree"
    cp out/*.deb "$root/packages"
    git ls-files -z -- tests examples debian docs | tar --null -T - -cf - | tar -xf - -C "$root/tmp/tree"
    install -d -m 777 "$root/tmp/home"
    inside apt-get update -qq >/dev/null 2>&1
    # what the packages depend on comes first, so that it is no part of what is compared
    # shellcheck disable=SC2086 # one word for each package
    step 'what they depend on' inside apt-get install -y -qq --no-install-recommends $needs
    files >"$scratch/before"
    step 'pert alone' inside sh -c 'dpkg -i /packages/pert_*.deb'
    step 'the cases of tests/acceptance' user sh -c 'cd /tmp/tree && debian/tests/acceptance'
    step 'the second checker' user sh -c 'cd /tmp/tree && debian/tests/recheck'
    step 'the other packages' inside sh -c 'dpkg -i /packages/pert-*.deb'
    step 'its modules are compiled' inside sh -c 'find /usr/lib/pert-companion -name "*.pyc" | grep -q .'
    step 'the companion' user sh -c 'cd /tmp/tree && debian/tests/companion'
    step 'the examples are copied and used' user sh -c 'cd && cp -r /usr/share/doc/pert/examples . && pert curve <examples/shed.csv'
    step 'all is purged' inside dpkg --purge pert-companion pert-doc pert
    files >"$scratch/after"
    step 'nothing is left' diff "$scratch/before" "$scratch/after"
    rm -rf "$root"
done
echo "chroots: $failed failed"
[ "$failed" -eq 0 ]

#!/usr/bin/env bash
# Checks that the crates of crates.txt are those of the table in docs/architecture.md, with what they use, and that the checker of certificates
# uses none of the solver's: no crate below `pert_check` finds a time-cost curve or writes its certificate.
cd "$(dirname "$0")/../.." || exit 1
listed() { sed -n 's/^\([a-z][a-z0-9_]*\):.*/\1/p' crates.txt | sort; }
# shellcheck disable=SC2016 # the backquotes are those of the page
told() { sed -n '/^## The crates/,/^## W/s/^| `\([a-z][a-z0-9_]*\)` |.*/\1/p' docs/architecture.md | sort; }
if ! diff <(listed) <(told); then
    echo "docs/architecture.md does not list the crates of crates.txt" >&2
    exit 1
fi

# What each crate uses, a pair per line: in crates.txt without what another crate of the line is above, and in the table. A crate of crates.txt
# follows those that it uses.
short() {
    awk -F'[: ]+' '
        /^[a-z]/ {
            delete lower
            for (pair in under) { split(pair, two, SUBSEP); for (i = 2; i <= NF; i++) if ($i == two[1]) lower[two[2]] }
            for (i = 2; i <= NF; i++) if ($i != "") { under[$1, $i]; if (!($i in lower)) print $1, $i }
            for (one in lower) under[$1, one]
        }' crates.txt | sort
}
shown() {
    sed -n '/^## The crates/,/^## W/p' docs/architecture.md | awk -F'|' '
        /^[|] `/ { gsub(/[` ]/, ""); n = split($3, one, ","); for (i = 1; i <= n; i++) if (one[i] != "-") print $2, one[i] }' | sort
}
if ! diff <(short) <(shown); then
    echo "docs/architecture.md: these crates use something else in crates.txt (<) than in the column Uses (>)" >&2
    exit 1
fi

# All crates below one, by the lines of crates.txt.
below() {
    awk -F'[: ]+' -v top="$1" '
        /^[a-z]/ { for (i = 2; i <= NF; i++) if ($i != "") uses[$1] = uses[$1] " " $i }
        END {
            waiting[1] = top
            for (last = 1; last >= 1; ) {
                split(uses[waiting[last--]], lower, " ")
                for (i in lower) if (!(lower[i] in seen)) { seen[lower[i]]; waiting[++last] = lower[i] }
            }
            for (crate in seen) print crate
        }' crates.txt | sort
}
solver=$(printf '%s\n' pc_flow pc_curve pc_total pc_certify | sort)
if gone=$(comm -23 <(echo "$solver") <(listed)) && [ -n "$gone" ]; then
    echo "crates.txt has no ${gone//$'\n'/ } any more: this check names the solver's crates" >&2
    exit 1
fi
if met=$(comm -12 <(echo "$solver") <(below pert_check)) && [ -n "$met" ]; then
    echo "pert_check uses ${met//$'\n'/ }, which belong to the solver" >&2
    exit 1
fi
echo "crates: $(listed | wc -l) are in docs/architecture.md, and pert_check uses none of the solver's"

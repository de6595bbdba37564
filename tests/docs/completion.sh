#!/usr/bin/env bash
# Checks completion, as tools/command-files.py writes it for bash, fish and zsh. For each program and each command of the companion it offers exactly
# the forms that the usage line names, or the options that --help names, and the choices of an option that has them.
set -u
export LC_ALL=C.UTF-8 PYTHONDONTWRITEBYTECODE=1
cd "$(dirname "$0")/../.." || exit 1
passed=0
failed=0

# same NAME WANTED GOT: two lists of words, one a line
same() {
    if [ "$2" = "$3" ]; then
        passed=$((passed + 1))
    else
        failed=$((failed + 1))
        echo "FAILED completion: $1 (< wanted, > got)"
        diff <(echo "$2") <(echo "$3") | head -n 10
    fi
}

# offered FILE FUNCTION COMMAND BEFORE WORD: what a function offers in bash for WORD after the word BEFORE, one a line
offered() {
    bash --norc --noprofile -c '
        . "tools/completion/$1"
        compopt() { :; } # (it works only while a person completes)
        COMP_CWORD=1
        "$2" "$3" "$5" "$4"
        printf "%s\n" "${COMPREPLY[@]}"' - "$@" | sort
}

# in_fish NAME WORD: what fish offers for WORD after the command
in_fish() { fish --no-config -c "source tools/completion/$1.fish; complete -C '$1 $2'" | cut -f 1 | sort; }

# in_zsh FILE NAME: what zsh is given to offer; its own calls are stubs here, which print their words
in_zsh() {
    zsh -f -c '_arguments() { print -rl -- "$@" }; _describe() { print -rl -- "${(@P)2}" }; _files() { print FILES }
        service=$2; CURRENT=${3:-2}; source "tools/completion/$1"' - "$@"
}

forms=$(sed 's/^usage: pert //' tests/acceptance/no-words/stderr | tr '|' '\n' | awk '{ print $1 }' | sort)
same 'the forms of pert in bash' "$forms" "$(offered pert.bash _pert pert pert '')"
same 'a form that is begun' 'certify' "$(offered pert.bash _pert pert pert certi)"
if command -v fish >/dev/null; then
    same 'the forms of pert in fish' "$forms" "$(in_fish pert '')"
    same 'a deck for pert_check in fish' 'examples/shed.csv' "$(in_fish pert_check examples/shed.csv)"
fi
if command -v zsh >/dev/null; then
    same 'the forms of pert in zsh' "$forms" "$(in_zsh _pert pert | sed 's/:.*//' | sort)"
    same 'files after a form in zsh' 'FILES' "$(in_zsh _pert pert 3)"
    same 'files for pert_check in zsh' 'FILES' "$(in_zsh _pert pert_check)"
fi

said=$(tools/command-files.py --check) || { echo "$said" && exit 1; }
if [[ $said == *skipped* ]]; then
    echo "completion: $passed passed, $failed failed; the companion's commands are left out: $said"
    exit $((failed > 0))
fi
for path in companion/bin/*; do
    name=${path##*/}
    # the options are the words in the left column of --help
    help=$(COLUMNS=200 "$path" --help) || exit 1
    wanted=$(sed -n 's/^  \(-[^ ].*\)$/\1/p' <<<"$help" | sed 's/  .*//' | grep -oE '(^|[ ,])--?[a-z][a-z-]*' | tr -d ' ,' | sort)
    [ -n "$wanted" ] || { echo "FAILED completion: $name --help names no option" && failed=$((failed + 1)); }
    same "$name, options in bash" "$wanted" "$(offered companion.bash _pert_companion "$name" "$name" -)"
    if command -v fish >/dev/null; then same "$name, options in fish" "$(grep '^--' <<<"$wanted")" "$(in_fish "$name" --)"; fi
    if command -v zsh >/dev/null; then
        same "$name, options in zsh" "$wanted" "$(in_zsh _pert-companion "$name" | sed -n 's/^\*\(-[a-z-]*\)\[.*/\1/p' | sort)"
    fi
done
days() { offered companion.bash _pert_companion pert-days "$@"; }
same 'the choices of pert-days --unit' $'days\nhours' "$(days --unit '')"
same 'a choice that is begun' 'hours' "$(days --unit h)"
same 'no option where a date is wanted' '' "$(days --count -)"
echo "completion: $passed passed, $failed failed"
[ "$failed" -eq 0 ]

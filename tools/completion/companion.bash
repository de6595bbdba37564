# Completion of the companion's commands; tools/command-files.py writes this file.
_pert_companion() {
    local options='' choices='' value=''
    case ${1##*/} in
    pert-check-status)
        options='-h --help --version --previous --baseline --strict --csv --json --bin'
        case $3 in
        --previous) value='file' ;;
        --baseline) value='file' ;;
        --bin) value='file' ;;
        esac
        ;;
    pert-compare)
        options='-h --help --version --baseline --left --by --earned --money --csv --json --lines --threshold -o --output --overwrite --bin'
        case $3 in
        --baseline) value='file' ;;
        --left) value='file' ;;
        --lines) choices='structure accounts managers totals months' ;;
        -o | --output) value='file' ;;
        --bin) value='file' ;;
        --by | --threshold) value='none' ;;
        esac
        ;;
    pert-days)
        options='-h --help --version --back --count --as-of --calendar --weekdays --holidays --unit -o --output --overwrite --json'
        case $3 in
        --holidays) value='file' ;;
        --unit) choices='days hours' ;;
        -o | --output) value='file' ;;
        --count | --as-of | --weekdays) value='none' ;;
        esac
        ;;
    pert-desk)
        options='-h --help --version --port --no-browser --behind-proxy --address --listen --bin'
        case $3 in
        --bin) value='file' ;;
        --port | --behind-proxy | --address | --listen) value='none' ;;
        esac
        ;;
    pert-edit)
        options='-h --help --version -o --output --overwrite --bin'
        case $3 in
        -o | --output) value='file' ;;
        --bin) value='file' ;;
        esac
        ;;
    pert-export)
        options='-h --help --version --length --by --optimum --normal --bin --plan -o --output --overwrite --format --into --json'
        case $3 in
        --bin) value='file' ;;
        -o | --output) value='file' ;;
        --format) choices='xml xlsx csv ics' ;;
        --into) value='file' ;;
        --length | --by) value='none' ;;
        esac
        ;;
    pert-import)
        options='-h --help --version -o --output --overwrite --accept --strict --differences --unit --cents --no-progress --with --contract --overhead --bonus --penalty --capacity --crash-sheet --with-crash --overtime --name --start --as-of --calendar --holidays --crash-field --crash-cost-field --column --sheet --decimal --encoding --day-first --month-first --day-hours --week-hours --month-days --json --bin'
        case $3 in
        -o | --output) value='file' ;;
        --with) value='file' ;;
        --crash-sheet) value='file' ;;
        --with-crash) value='file' ;;
        --holidays) value='file' ;;
        --decimal) choices='. ,' ;;
        --month-days) choices='1 2 3 4 5 6 7 8 9 10 11 12 13 14 15 16 17 18 19 20 21 22 23 24 25 26 27 28 29 30 31' ;;
        --bin) value='file' ;;
        --accept | --unit | --contract | --overhead | --bonus | --penalty | --capacity | --overtime | --name | --start | --as-of | --calendar | --crash-field | --crash-cost-field | --column | --sheet | --encoding | --day-hours | --week-hours) value='none' ;;
        esac
        ;;
    pert-ledger)
        options='-h --help --version -o --output --overwrite --as-of --ledger --to-go --progress --accept --column --sheet --decimal --encoding --day-first --month-first --json --bin'
        case $3 in
        -o | --output) value='file' ;;
        --ledger) value='file' ;;
        --to-go) value='file' ;;
        --progress) value='file' ;;
        --decimal) choices='. ,' ;;
        --bin) value='file' ;;
        --as-of | --accept | --column | --sheet | --encoding) value='none' ;;
        esac
        ;;
    pert-portfolio)
        options='-h --help --version -o --output --overwrite --csv --json --previous --baseline --stale --cache --no-cache --hosts --remote --worker --bin'
        case $3 in
        -o | --output) value='file' ;;
        --previous) value='file' ;;
        --baseline) value='file' ;;
        --cache) value='file' ;;
        --hosts) value='file' ;;
        --bin) value='file' ;;
        --stale | --remote) value='none' ;;
        esac
        ;;
    pert-remaining)
        options='-h --help --version -o --output --overwrite --left --json --bin'
        case $3 in
        -o | --output) value='file' ;;
        --left) value='file' ;;
        --bin) value='file' ;;
        esac
        ;;
    pert-report)
        options='-h --help --version --length --by --optimum --normal --bin -o --output --overwrite --baseline --previous --currency --brief --check --verify-page --json'
        case $3 in
        --bin) value='file' ;;
        -o | --output) value='file' ;;
        --baseline) value='file' ;;
        --previous) value='file' ;;
        --check) value='file' ;;
        --verify-page) value='file' ;;
        --length | --by | --currency) value='none' ;;
        esac
        ;;
    pert-schedule)
        options='-h --help --version --length --by --optimum --normal --bin --plan --gantt --critical --next --resource --order --load --chance --csv --json --forecast --baseline --left'
        case $3 in
        --bin) value='file' ;;
        --order) choices='start plan' ;;
        --baseline) value='file' ;;
        --left) value='file' ;;
        --length | --by | --next | --resource) value='none' ;;
        esac
        ;;
    esac
    COMPREPLY=()
    if [ -n "$choices" ]; then
        mapfile -t COMPREPLY < <(compgen -W "$choices" -- "$2")
    elif [ "$value" = none ]; then
        compopt +o default +o bashdefault
    elif [ "$value" != file ] && [[ $2 == -* ]]; then
        mapfile -t COMPREPLY < <(compgen -W "$options" -- "$2")
    fi
}
complete -o bashdefault -o default -F _pert_companion pert-check-status pert-compare pert-days pert-desk pert-edit pert-export pert-import pert-ledger pert-portfolio pert-remaining pert-report pert-schedule

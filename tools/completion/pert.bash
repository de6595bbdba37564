# Completion of the programs; tools/command-files.py writes this file.
_pert() {
    if [ "$COMP_CWORD" -eq 1 ]; then
        mapfile -t COMPREPLY < <(compgen -W 'check normal times summary value curve certify point outlook bench migrate optimum arrows load' -- "$2")
    fi
}
complete -o bashdefault -o default -F _pert pert
complete -f pert_check
complete -f pert_whatif
complete -f pert-recheck

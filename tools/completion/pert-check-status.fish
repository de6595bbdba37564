# Completion of the companion's commands; tools/command-files.py writes this file.
complete -c pert-check-status -s h -l help -d 'show this help message and exit'
complete -c pert-check-status -l version -d 'show program\'s version number and exit'
complete -c pert-check-status -l previous -r -F -d 'the state before (default: in the folder)'
complete -c pert-check-status -l baseline -r -F -d 'the plan whose budgets are compared'
complete -c pert-check-status -l strict -d 'status 1 if there is anything'
complete -c pert-check-status -l csv -d 'print CSV instead of text'
complete -c pert-check-status -l json -d 'print JSON instead of text'
complete -c pert-check-status -l bin -r -F -d 'folder of pert, pert_check and pert_whatif'

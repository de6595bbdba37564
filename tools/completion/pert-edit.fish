# Completion of the companion's commands; tools/command-files.py writes this file.
complete -c pert-edit -s h -l help -d 'show this help message and exit'
complete -c pert-edit -l version -d 'show program\'s version number and exit'
complete -c pert-edit -s o -l output -r -F -d 'the deck to write, with its side file and ledger; - is standard output'
complete -c pert-edit -l overwrite -d 'replace files of another kind, and files that are read, too'
complete -c pert-edit -l bin -r -F -d 'folder of pert, pert_check and pert_whatif'

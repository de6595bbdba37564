# Completion of the companion's commands; tools/command-files.py writes this file.
complete -c pert-remaining -s h -l help -d 'show this help message and exit'
complete -c pert-remaining -l version -d 'show program\'s version number and exit'
complete -c pert-remaining -s o -l output -r -F -d 'the deck to write; - is standard output'
complete -c pert-remaining -l overwrite -d 'replace files of another kind, and files that are read, too'
complete -c pert-remaining -l left -r -F -d 'rows activity,left[,crash] in units of the deck'
complete -c pert-remaining -l json -d 'print JSON instead of a table'
complete -c pert-remaining -l bin -r -F -d 'folder of pert, pert_check and pert_whatif'

# Completion of the programs; tools/command-files.py writes this file.
complete -c pert_check -F

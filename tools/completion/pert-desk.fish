# Completion of the companion's commands; tools/command-files.py writes this file.
complete -c pert-desk -s h -l help -d 'show this help message and exit'
complete -c pert-desk -l version -d 'show program\'s version number and exit'
complete -c pert-desk -l port -x -d 'the port (default: one that is free)'
complete -c pert-desk -l no-browser -d 'print the address alone'
complete -c pert-desk -l behind-proxy -x -d 'requests come from a proxy that authenticates and names the user in this header'
complete -c pert-desk -l address -x -d 'with --behind-proxy: the address by which people reach the proxy'
complete -c pert-desk -l listen -x -d 'the address to listen on (127.0.0.1); others go with --behind-proxy alone'
complete -c pert-desk -l bin -r -F -d 'folder of pert, pert_check and pert_whatif'

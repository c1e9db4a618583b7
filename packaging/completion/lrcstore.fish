# Completion of lrcstore(1) for fish.
complete -c lrcstore -l width -x -a '1 64 4096 65536' -d 'bytes of a fragment'
complete -c lrcstore -l workers -x -a '1 2 4 8 16' -d 'number of workers'
complete -c lrcstore -l limit -x -a '4096 65536 1048576' -d 'most entries of the journal'
complete -c lrcstore -l history -d 'print the journal, too'
complete -c lrcstore -l help -d 'print the help'
complete -c lrcstore -l version -d 'print the version'

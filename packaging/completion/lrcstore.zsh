#compdef lrcstore
# Completion of lrcstore(1) for zsh.
_arguments \
    '--width[bytes of a fragment]:bytes:(1 64 4096 65536)' \
    '--workers[number of workers]:workers:(1 2 4 8 16)' \
    '--limit[most entries of the journal]:entries:(4096 65536 1048576)' \
    '--history[print the journal, too]' \
    '--help[print the help]' \
    '--version[print the version]' \
    '1:script:_files -g "*.csv"'

#compdef lrc
# Completion of lrc(1) for zsh.
local -a common
common=(
    '--id[identifier of the set]:hexadecimal digits:'
    '--threads[number of threads]:threads:(1 2 4 8 16)'
    '--json[print the report as JSON]'
    '--help[print the help]'
)
if (( CURRENT == 2 )); then
    _values 'command' \
        'split[write the fragments of files]' \
        'verify[read every record]' \
        'repair[write lost fragments again]' \
        'join[write the file again]' \
        'show[print a picture]' \
        '--help[print the help]' \
        '--version[print the version]'
    return
fi
case $words[2] in
    split)
        _arguments $common \
            '*--to[folders of the fragments]:folder:_files -/' \
            '--code[data fragments]:number:(12 6)' \
            '--width[bytes of a block]:bytes:(4096 65536 1048576)' \
            '--name[name of the fragments]:name:' \
            '--force[replace fragments of this name]' \
            '*:file:_files'
        ;;
    verify) _arguments $common '--expect[digest of the set]:hexadecimal digits:' '*:file:_files' ;;
    repair)
        _arguments $common \
            '*--to[folders for missing fragments]:folder:_files -/' \
            '--check[read every record first]' \
            '*:file:_files'
        ;;
    join)
        _arguments $common \
            '--to[the file to write]:file:_files' \
            '--range[bytes of the file]:A-B:' \
            '--force[replace a file of this name]' \
            '*:file:_files'
        ;;
    show) _arguments $common '*:file:_files' ;;
esac

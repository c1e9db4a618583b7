# Completion of lrcstore(1) for bash.
_lrcstore() {
    local cur=${COMP_WORDS[COMP_CWORD]} prev=${COMP_WORDS[COMP_CWORD - 1]}
    case $prev in
        --width) mapfile -t COMPREPLY < <(compgen -W "1 64 4096 65536" -- "$cur") ;;
        --workers) mapfile -t COMPREPLY < <(compgen -W "1 2 4 8 16" -- "$cur") ;;
        --limit) mapfile -t COMPREPLY < <(compgen -W "4096 65536 1048576" -- "$cur") ;;
        *)
            if [[ $cur == -* ]]; then
                mapfile -t COMPREPLY < <(compgen -W \
                    "--width --workers --limit --history --help --version" -- "$cur")
            else
                compopt -o filenames 2> /dev/null
                mapfile -t COMPREPLY < <(compgen -f -X '!*.csv' -- "$cur"; compgen -d -- "$cur")
            fi
            ;;
    esac
}
complete -F _lrcstore lrcstore

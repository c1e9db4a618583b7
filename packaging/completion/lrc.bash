# Completion of lrc(1) for bash.
_lrc() {
    local cur=${COMP_WORDS[COMP_CWORD]} prev=${COMP_WORDS[COMP_CWORD - 1]} words
    if [ "$COMP_CWORD" = 1 ]; then
        mapfile -t COMPREPLY < <(compgen -W \
            "split verify repair join show --help --version" -- "$cur")
        return
    fi
    case $prev in
        --id | --expect | --range | --name) return ;;
        --code) mapfile -t COMPREPLY < <(compgen -W "12 6" -- "$cur") ;;
        --width) mapfile -t COMPREPLY < <(compgen -W "4096 65536 1048576" -- "$cur") ;;
        --threads) mapfile -t COMPREPLY < <(compgen -W "1 2 4 8 16" -- "$cur") ;;
        *)
            if [[ $cur == -* ]]; then
                words="--id --threads --json --help"
                case ${COMP_WORDS[1]} in
                    split) words+=" --to --code --width --name --force" ;;
                    verify) words+=" --expect" ;;
                    repair) words+=" --to --check" ;;
                    join) words+=" --to --range --force" ;;
                esac
                mapfile -t COMPREPLY < <(compgen -W "$words" -- "$cur")
            else
                compopt -o filenames 2> /dev/null
                mapfile -t COMPREPLY < <(compgen -f -- "$cur")
            fi
            ;;
    esac
}
complete -F _lrc lrc

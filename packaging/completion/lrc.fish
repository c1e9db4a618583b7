# Completion of lrc(1) for fish.
set -l commands split verify repair join show
set -l none "not __fish_seen_subcommand_from $commands"
set -l any "__fish_seen_subcommand_from $commands"
complete -c lrc -n $none -f -a split -d 'write the fragments of files'
complete -c lrc -n $none -f -a verify -d 'read every record'
complete -c lrc -n $none -f -a repair -d 'write lost fragments again'
complete -c lrc -n $none -f -a join -d 'write the file again'
complete -c lrc -n $none -f -a show -d 'print a picture'
complete -c lrc -n $none -l version -d 'print the version'
complete -c lrc -l help -d 'print the help'
complete -c lrc -n $any -l id -x -d 'identifier of the set'
complete -c lrc -n $any -l threads -x -a '1 2 4 8 16' -d 'number of threads'
complete -c lrc -n $any -l json -d 'print the report as JSON'
complete -c lrc -n "__fish_seen_subcommand_from split repair" -l to -x \
    -a '(__fish_complete_directories)' -d 'folders of fragments'
complete -c lrc -n "__fish_seen_subcommand_from join" -l to -r -F -d 'the file to write'
complete -c lrc -n "__fish_seen_subcommand_from split" -l code -x -a '12 6' -d 'data fragments'
complete -c lrc -n "__fish_seen_subcommand_from split" -l width -x -a '4096 65536 1048576' \
    -d 'bytes of a block'
complete -c lrc -n "__fish_seen_subcommand_from split" -l name -x -d 'name of the fragments'
complete -c lrc -n "__fish_seen_subcommand_from split join" -l force -d 'replace files'
complete -c lrc -n "__fish_seen_subcommand_from verify" -l expect -x -d 'digest of the set'
complete -c lrc -n "__fish_seen_subcommand_from repair" -l check -d 'read every record first'
complete -c lrc -n "__fish_seen_subcommand_from join" -l range -x -d 'bytes of the file'

# fish completion for vicinity

complete -c vicinity -f
complete -c vicinity -n __fish_is_first_arg -a '@COMMANDS@'
complete -c vicinity -n '__fish_seen_subcommand_from @WITH_FILES@' -F
complete -c vicinity -n '__fish_is_nth_token 2; and __fish_seen_subcommand_from @WITH_FILE@' -F

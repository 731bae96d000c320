# Completions of lmskey for fish: put this file into ~/.config/fish/completions.
set -l commands new sign show restore help
complete -c lmskey -f
complete -c lmskey -s h -l help -d 'Print help'
complete -c lmskey -n "not __fish_seen_subcommand_from $commands" -s V -l version -d 'Print the version'
complete -c lmskey -n "not __fish_seen_subcommand_from $commands" -a new -d 'Make a key'
complete -c lmskey -n "not __fish_seen_subcommand_from $commands" -a sign -d 'Sign files, each by a leaf of its own'
complete -c lmskey -n "not __fish_seen_subcommand_from $commands" -a show -d "Print a key's id, kind and leaves"
complete -c lmskey -n "not __fish_seen_subcommand_from $commands" -a restore -d 'Make a lost leaves file again'
complete -c lmskey -n "not __fish_seen_subcommand_from $commands" -a help -d 'Print help'
complete -c lmskey -n '__fish_seen_subcommand_from help' -a 'new sign show restore'
complete -c lmskey -n '__fish_seen_subcommand_from new sign show restore' -F
complete -c lmskey -n '__fish_seen_subcommand_from new' -l width -x -a '4 8' -d 'The width of the chains'
complete -c lmskey -n '__fish_seen_subcommand_from new' -l height -x -a '5 10 15' -d 'The height of the tree'
complete -c lmskey -n '__fish_seen_subcommand_from new sign restore' -l log -r -F -d 'The log of reserved leaves, on another device'
complete -c lmskey -n '__fish_seen_subcommand_from new sign restore' -l no-log -d 'Keep no log'
complete -c lmskey -n '__fish_seen_subcommand_from sign' -l suffix -x -d "What follows the file's name and a point"
complete -c lmskey -n '__fish_seen_subcommand_from restore' -l gap -x -d 'How many leaves are given up beyond those of the log'

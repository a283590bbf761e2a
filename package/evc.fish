# Completes the words of evc in fish.
complete -c evc -n __fish_use_subcommand -f -a check -d 'Reads a trace, and writes the order of its calls and the totals'
complete -c evc -n __fish_use_subcommand -f -a audit -d 'Reads a trace, and writes what its buffers, databases and semaphores did'
complete -c evc -n __fish_use_subcommand -f -a upgrade -d 'Reads a trace, and writes it in version 2 of the format'
complete -c evc -n __fish_use_subcommand -f -a sim -d 'Reads a script, and writes the trace of what its workers do by its schedule'
complete -c evc -n __fish_use_subcommand -f -a run -d "Runs a script's workers on threads, and writes the trace of what they did"
complete -c evc -n __fish_use_subcommand -f -a help -d 'Says more of a command'
complete -c evc -n '__fish_seen_subcommand_from help' -f -a 'check audit upgrade sim run'
complete -c evc -n '__fish_seen_subcommand_from check audit upgrade sim run' -F
complete -c evc -n '__fish_seen_subcommand_from run' -x -l turns -d 'How many steps each worker may make'
complete -c evc -s h -l help -d 'Says more'
complete -c evc -n __fish_use_subcommand -s V -l version -d 'Says the version'

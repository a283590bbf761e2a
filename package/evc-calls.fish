# Completes the words of evc-calls in fish.
complete -c evc-calls -n __fish_use_subcommand -f -a check -d 'Writes a linearization of each history, or a note that says why there is none'
complete -c evc-calls -n __fish_use_subcommand -f -a watch -d 'Judges each event when its line comes, or some histories at their end'
complete -c evc-calls -n __fish_use_subcommand -f -a of -d 'Writes the calls of a trace of steps as a history of calls'
complete -c evc-calls -n __fish_use_subcommand -f -a trace -d 'Writes a trace of steps with the calls of a history'
complete -c evc-calls -n '__fish_seen_subcommand_from check watch of trace' -F
complete -c evc-calls -s h -l help -d 'Says more'
complete -c evc-calls -s V -l version -d 'Says the version'

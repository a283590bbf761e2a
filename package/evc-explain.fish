# Completes the words of evc-explain in fish: a file, or an option.
complete -c evc-explain -s h -l help -d 'tell more'
complete -c evc-explain -s V -l version -d 'tell the version'

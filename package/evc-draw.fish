# Completes the words of evc-draw in fish.
complete -c evc-draw -l text -d 'A table for a terminal'
complete -c evc-draw -l html -d 'A page with the picture, to scroll and zoom'
complete -c evc-draw -x -l from -d 'The first entry that is drawn, counted from 0'
complete -c evc-draw -x -l to -d 'The last entry that is drawn'
complete -c evc-draw -x -l worker -d 'Only this worker'
complete -c evc-draw -x -l object -d 'Only the calls on this object, and its counts'
complete -c evc-draw -s h -l help -d 'Says more'
complete -c evc-draw -s V -l version -d 'Says the version'

# Completions of postcopy-session for fish.
complete -c postcopy-session -s h -l help -d 'print help'
complete -c postcopy-session -s o -r -F -d 'write to this file, or to this folder with --windows'
complete -c postcopy-session -l window -x -d 'the session of these pages alone'
complete -c postcopy-session -l windows -x -d 'a session for every so many pages'
complete -c postcopy-session -l recording -d 'all pages and records, however many'
complete -c postcopy-session -l cut -d 'cut the logs to a whole where something is missing'

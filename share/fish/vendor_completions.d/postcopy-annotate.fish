# Completions of postcopy-annotate for fish.
complete -c postcopy-annotate -s h -l help -d 'print help'
complete -c postcopy-annotate -l as -x -a 'lines github junit sarif' -d 'the form'
complete -c postcopy-annotate -l complete -d 'ask for whole migrations'
complete -c postcopy-annotate -l complete-pages -d 'ask for the halt, the resume and each owed page'
complete -c postcopy-annotate -l program -r -F -d 'the program to ask'

# Completions of postcopy-report for fish.
complete -c postcopy-report -s h -l help -d 'print help'
complete -c postcopy-report -s o -r -F -d 'the report to write'
complete -c postcopy-report -l most -x -d 'put larger files in by windows'
complete -c postcopy-report -l windows -x -d 'so many windows of a file at most'
complete -c postcopy-report -l page -r -F -d 'the page to put the sessions into'
complete -c postcopy-report -l program -r -F -d 'the program that cuts windows'

# Completions of postcopy for fish: its commands and their options, as its help lists them, and files.
function __postcopy_commands
    set -l words (commandline -opc)
    command $words[1] --help 2>/dev/null | sed -n '/^Commands:/,/^$/s/^  \([a-z][a-z-]*\)  *\(.*\)/\1\t\2/p' | sed 's/\. Example: .*//'
end

function __postcopy_options
    set -l words (commandline -opc)
    set -l lines (command $words[1] $words[2] --help 2>/dev/null | string match -r '^ +-.*')
    string replace -rf '^ +(?:-\w, )?(--[a-z-]+)(?: <\w+>)? +([^[]*).*' '$1\t$2' -- $lines
    string replace -rf '^ +(-\w), --[a-z-]+(?: <\w+>)? +([^[]*).*' '$1\t$2' -- $lines
end

function __postcopy_has_command
    test (count (commandline -opc)) -gt 1
end

function __postcopy_behind
    set -l words (commandline -opc)
    test "$words[-1]" = $argv[1]
end

complete -c postcopy -n 'not __postcopy_has_command' -f -a '(__postcopy_commands)'
complete -c postcopy -n 'not __postcopy_has_command' -s h -l help -d 'Print help'
complete -c postcopy -n 'not __postcopy_has_command' -s V -l version -d 'Print version'
complete -c postcopy -n '__postcopy_has_command; and string match -q -- "-*" (commandline -ct)' -a '(__postcopy_options)'
complete -c postcopy -n '__postcopy_behind --format' -f -a 'text json'
complete -c postcopy -n '__postcopy_behind --link' -f -a 'memory tcp'
complete -c postcopy -n '__postcopy_behind --line; or __postcopy_behind --page' -f

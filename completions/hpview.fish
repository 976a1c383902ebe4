# Completions of hpview for fish.

# Whether this option isn't there yet.
function __hpview_lacks
    not string match -qr -- "^--$argv[1](=|\$)" (commandline -opc)
end

complete -c hpview -f
complete -c hpview -n '__hpview_lacks from' -l from -x -d 'the number of the first event, from 1'
complete -c hpview -n '__hpview_lacks to' -l to -x -d 'the number of the last event'

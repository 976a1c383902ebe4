# Completions of hp for fish.

# Whether so many words stand before the cursor, the program's name counted.
function __hp_stands_behind
    test (count (commandline -opc)) -eq $argv[1]
end

# Whether the command takes options, and doesn't have this one yet.
function __hp_takes
    set -l words (commandline -opc)
    contains -- "$words[2]" gen bench; and not string match -qr -- "^--$argv[1](=|\$)" $words[3..-1]
end

complete -c hp -f
complete -c hp -n '__hp_stands_behind 1' -a play -d 'a script: its journal and summary'
complete -c hp -n '__hp_stands_behind 1' -a states -d 'a script: the states file after its run'
complete -c hp -n '__hp_stands_behind 1' -a report -d 'a script: its summary as JSON'
complete -c hp -n '__hp_stands_behind 1' -a count -d 'a script: the counters of a state'
complete -c hp -n '__hp_stands_behind 1' -a smt -d 'a script: its journal under SMT control'
complete -c hp -n '__hp_stands_behind 1' -a replay -d 'a journal: checked, and its summary'
complete -c hp -n '__hp_stands_behind 1' -a migrate -d 'a journal of version 1: in version 2, and its summary'
complete -c hp -n '__hp_stands_behind 1' -a gen -d 'a generated script'
complete -c hp -n '__hp_stands_behind 1' -a bench -d 'the summary of a generated script'
complete -c hp -n '__hp_stands_behind 2; and __fish_seen_subcommand_from count' -a '(seq 1 198)' -d state
complete -c hp -n '__hp_stands_behind 3; and __fish_seen_subcommand_from count' -a '1 10 100 1000 10000 100000 1000000' -d batch
complete -c hp -n '__hp_stands_behind 2; and __fish_seen_subcommand_from smt' -a '(seq 2 8)' -d 'threads of a core'
complete -c hp -n '__hp_stands_behind 3; and __fish_seen_subcommand_from smt' -a 'off forceoff' -d mode
complete -c hp -n '__hp_takes seed' -l seed -x -d 'a number of 64 bits, 1 by default'
complete -c hp -n '__hp_takes size' -l size -x -a '1 10 100 1000' -d '1 to 1000, 100 by default'

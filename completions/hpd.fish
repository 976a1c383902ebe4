# Completions of hpd for fish.

complete -c hpd -f
complete -c hpd -n 'test (count (commandline -opc)) -eq 1' -a run -d 'a script, on threads: its journal and summary'
complete -c hpd -n 'test (count (commandline -opc)) -eq 1' -a work -d 'the same, and the work queues of a state'
complete -c hpd -n 'test (count (commandline -opc)) -eq 2; and __fish_seen_subcommand_from work' -a '(seq 1 198)' -d state

# Completions of hptrace for fish: it has no words.

complete -c hptrace -f

# Completions of hptrace for bash: it has no words, and reads a file.

_hptrace() {
    local current=${COMP_WORDS[COMP_CWORD]} before=${COMP_WORDS[COMP_CWORD - 1]} redirects='^[0-9]*[<>]'
    COMPREPLY=()
    if [[ $before =~ $redirects ]]; then
        compopt -o filenames 2>/dev/null
        mapfile -t COMPREPLY < <(compgen -f -- "$current")
    fi
}
complete -F _hptrace hptrace

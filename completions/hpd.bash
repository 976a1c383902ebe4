# Completions of hpd for bash.

_hpd() {
    local current=${COMP_WORDS[COMP_CWORD]} redirects='^[0-9]*[<>]'
    COMPREPLY=()
    if [[ ${COMP_WORDS[COMP_CWORD - 1]} =~ $redirects ]]; then
        compopt -o filenames 2>/dev/null
        mapfile -t COMPREPLY < <(compgen -f -- "$current")
    elif [[ $COMP_CWORD -eq 1 ]]; then
        mapfile -t COMPREPLY < <(compgen -W "run work" -- "$current")
    elif [[ $COMP_CWORD -eq 2 && ${COMP_WORDS[1]} == work ]]; then
        mapfile -t COMPREPLY < <(compgen -W "$(echo {1..198})" -- "$current")
    fi
}
complete -F _hpd hpd

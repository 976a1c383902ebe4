# Completions of hpview for bash.

_hpview() {
    local current=${COMP_WORDS[COMP_CWORD]} before=${COMP_WORDS[COMP_CWORD - 1]} redirects='^[0-9]*[<>]' option options=""
    COMPREPLY=()
    if [[ $before =~ $redirects ]]; then
        compopt -o filenames 2>/dev/null
        mapfile -t COMPREPLY < <(compgen -f -- "$current")
        return
    fi
    # What stands behind an option, or behind its `=`, is a number.
    [[ $before == --from || $before == --to || $before == = || $current == = ]] && return
    for option in --from --to; do
        [[ " ${COMP_WORDS[*]:1:COMP_CWORD-1} " == *" $option "* ]] || options+=" $option"
    done
    mapfile -t COMPREPLY < <(compgen -W "$options" -- "$current")
}
complete -F _hpview hpview

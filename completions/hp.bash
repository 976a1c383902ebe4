# Completions of hp for bash.

# Offers those of the words that begin as the current one does.
_hp_offer() {
    mapfile -t COMPREPLY < <(compgen -W "$1" -- "$current")
}

# Offers the options of gen and bench that aren't there yet, or some values.
_hp_options() {
    case $before in
        --seed) _hp_offer "" ;;
        --size) _hp_offer "1 10 100 1000" ;;
        *)
            local option options=""
            for option in --seed --size; do
                [[ " ${words[*]} " == *" $option "* ]] || options+=" $option"
            done
            _hp_offer "$options"
            ;;
    esac
}

_hp() {
    local current=${COMP_WORDS[COMP_CWORD]} before="" words=() redirects='^[0-9]*[<>]' is_file=no word
    COMPREPLY=()
    # The words before the cursor, without redirections, and with `=` between an option and its value left out.
    for word in "${COMP_WORDS[@]:1:COMP_CWORD-1}"; do
        if [[ $word =~ $redirects ]]; then
            is_file=yes
        elif [[ $is_file == yes ]]; then
            is_file=no
        elif [[ $word != = ]]; then
            words+=("$word")
            before=$word
        fi
    done
    [[ $current == = ]] && current=""
    if [[ $is_file == yes ]]; then
        compopt -o filenames 2>/dev/null
        mapfile -t COMPREPLY < <(compgen -f -- "$current")
        return
    fi
    case ${#words[@]}:${words[0]-} in
        0:) _hp_offer "play states report replay migrate count smt gen bench" ;;
        *:gen | *:bench) _hp_options ;;
        1:count) _hp_offer "$(echo {1..198})" ;;
        2:count) _hp_offer "1 10 100 1000 10000 100000 1000000" ;;
        1:smt) _hp_offer "$(echo {2..8})" ;;
        2:smt) _hp_offer "off forceoff" ;;
    esac
}
complete -F _hp hp

# Completions of adarun for bash: its commands, and names of files behind them.
_adarun() {
    local word=${COMP_WORDS[COMP_CWORD]}
    COMPREPLY=()
    if [ "$COMP_CWORD" = 1 ]; then
        mapfile -t COMPREPLY < <(compgen -W "simulate check format lower go trace measure search compile list run explain manual version" -- "$word")
    elif [ "${COMP_WORDS[1]}" = trace ] && [ "$COMP_CWORD" = 2 ] && [[ $word == -* ]]; then
        mapfile -t COMPREPLY < <(compgen -W "--vcd --chart --svg" -- "$word")
    elif [ "${COMP_WORDS[1]}" = trace ] && [ "${COMP_WORDS[2]}" = --vcd ] && [ "$COMP_CWORD" = 3 ] && [[ $word == -* ]]; then
        COMPREPLY=(--time)
    elif [ "${COMP_WORDS[1]}" = measure ] && [ "$COMP_CWORD" = 2 ] && [[ $word == -* ]]; then
        COMPREPLY=(--tsv)
    elif [[ ${COMP_WORDS[1]} = simulate || ${COMP_WORDS[1]} = trace || ${COMP_WORDS[1]} = measure ]] && [ "$COMP_CWORD" -gt 2 ] && [[ $word == -* ]]; then
        COMPREPLY=(--until)
    elif [ "${COMP_WORDS[1]}" = search ] && [ "$COMP_CWORD" = 6 ]; then
        mapfile -t COMPREPLY < <(compgen -W "unhandled waits line --part" -- "$word")
    elif [ "${COMP_WORDS[1]}" = search ] && [ "$COMP_CWORD" -gt 6 ] && [[ $word == -* ]]; then
        COMPREPLY=(--part)
    fi
}
complete -o bashdefault -o default -F _adarun adarun

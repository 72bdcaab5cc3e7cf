# Completions of udsnorm for bash: the commands and options that its help tells.

_udsnorm()
{
    local word=${COMP_WORDS[COMP_CWORD]} before=${COMP_WORDS[COMP_CWORD-1]} help words

    COMPREPLY=()
    if [[ $COMP_CWORD -eq 1 ]]; then
        help=$("${COMP_WORDS[0]}" --help 2> /dev/null)
        words=$(sed -nE 's/^  ([a-z]+)  .*/\1/p' <<< "$help")
    else
        help=$("${COMP_WORDS[0]}" "${COMP_WORDS[1]}" --help 2> /dev/null)
        [[ $before == --* && $help == *" $before <"* && $help != *" $before <FILE>"* ]] && return
        if [[ $word != -* || $help == *" $before <FILE>"* ]]; then
            compopt -o filenames
            mapfile -t COMPREPLY < <(compgen -f -- "$word")
            return
        fi
    fi
    words+=$(sed -nE 's/^ +((-.), )?(--[a-z-]+).*/ \2 \3/p' <<< "$help")
    mapfile -t COMPREPLY < <(compgen -W "$words" -- "$word")
}

complete -F _udsnorm udsnorm

# Completion of fib's words in bash: . completions/fib.bash

_fib() {
    local word=${COMP_WORDS[COMP_CWORD]} before=${COMP_WORDS[COMP_CWORD - 1]} words=
    COMPREPLY=()
    # Of --option=value bash makes three words.
    [ "$word" = = ] && word=
    [ "$before" = = ] && before=${COMP_WORDS[COMP_CWORD - 2]}
    case $before in
    --every | --direct | --nodes | --leaves | --seed | make) return 0 ;; # a number follows
    esac
    if [ "$COMP_CWORD" -eq 1 ]; then
        words="run check same save moves make steps"
    elif [ "$before" = --rows ]; then
        words="route table least"
    elif [[ $word == -* && ($before != --* || $before == --fewest || $before == --steady || $before == --check) ]]; then
        # An option may be given once.
        local option options=
        [[ ${COMP_WORDS[1]} == run ]] && options="--updates --ask --vrps --every --fewest --steady --direct --nodes --leaves"
        [[ ${COMP_WORDS[1]} == same ]] && options="--rows"
        [[ ${COMP_WORDS[1]} == save ]] && options="--updates"
        # moves takes one of its options.
        [[ ${COMP_WORDS[1]} == moves && " ${COMP_WORDS[*]} " != *" --check "* && " ${COMP_WORDS[*]} " != *" --steady "* ]] && options="--check --steady"
        [[ ${COMP_WORDS[1]} == make ]] && options="--seed"
        [[ ${COMP_WORDS[1]} == steps ]] && options="--direct --nodes --leaves"
        for option in $options; do
            [[ " ${COMP_WORDS[*]} " == *" $option "* ]] || words="$words${words:+ }$option"
        done
    fi
    if [ -n "$words" ]; then
        mapfile -t COMPREPLY < <(compgen -W "$words" -- "$word")
    elif [ "${COMP_WORDS[1]}" != make ]; then # which reads no file
        compopt -o filenames 2>/dev/null
        mapfile -t COMPREPLY < <(compgen -f -- "$word")
    fi
}

complete -F _fib fib

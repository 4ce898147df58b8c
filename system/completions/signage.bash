# Completion of signage for bash: source it, or put it into share/bash-completion/completions/signage.

_signage_options() {
    case $1 in
        serve) echo --db --listen --key --connections ;;
        edit) echo --db ;;
        report) echo --db --from --to ;;
    esac
}

_signage() {
    local word=${COMP_WORDS[COMP_CWORD]} before=${COMP_WORDS[COMP_CWORD - 1]}
    COMPREPLY=()
    if [ "$COMP_CWORD" -eq 1 ]; then
        mapfile -t COMPREPLY < <(compgen -W 'preview serve edit report' -- "$word")
    elif [ "$before" = --db ]; then
        mapfile -t COMPREPLY < <(compgen -f -- "$word")
    elif [[ $before != --* ]]; then
        local option unused=''
        for option in $(_signage_options "${COMP_WORDS[1]}"); do
            [[ " ${COMP_WORDS[*]} " == *" $option "* ]] || unused+="$option "
        done
        mapfile -t COMPREPLY < <(compgen -W "$unused" -- "$word")
    fi
}

complete -o filenames -F _signage signage

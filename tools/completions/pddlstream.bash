# Completion of pddlstream for bash: source this file, or put it into /etc/bash_completion.d or
# ~/.local/share/bash-completion/completions/pddlstream.

_pddlstream() {
    local word=${COMP_WORDS[COMP_CWORD]} before=${COMP_WORDS[COMP_CWORD-1]} command=${COMP_WORDS[1]} place
    COMPREPLY=()
    if [ "$COMP_CWORD" -eq 1 ]; then
        COMPREPLY=($(compgen -W "solve replay generate migrate deorder play" -- "$word"))
        return
    fi
    for ((place = 2; place < COMP_CWORD; place++)); do
        if [ "${COMP_WORDS[place]}" = -- ]; then
            COMPREPLY=($(compgen -c -f -- "$word"))
            return
        fi
    done
    case $before in
        --algorithm) COMPREPLY=($(compgen -W "incremental focused binding adaptive" -- "$word")); return ;;
        --protocol) COMPREPLY=($(compgen -W "1 2" -- "$word")); return ;;
        --calls | --states | --depth | --workers | --restarts) return ;;
    esac
    case $command:$word in
        solve:-*) COMPREPLY=($(compgen -W "--map --algorithm --calls --states --depth --workers --protocol --restarts --optimal --" -- "$word")) ;;
        migrate:-*) ;;
        replay:-*) COMPREPLY=($(compgen -W "--states --optimal" -- "$word")) ;;
        deorder:-* | play:-*) COMPREPLY=($(compgen -W "--states" -- "$word")) ;;
        generate:*) COMPREPLY=($(compgen -W "1 2 3 4 5 6 7 8 9 10 11 12" -- "$word")) ;;
        *) COMPREPLY=($(compgen -f -- "$word")) ;;
    esac
}
complete -o filenames -F _pddlstream pddlstream

# Completes the words of valec in bash: its commands, then a file, then the options of a run.
_valec() {
    local word=${COMP_WORDS[COMP_CWORD]}
    COMPREPLY=()
    case $COMP_CWORD in
    1) COMPREPLY=($(compgen -W "run check fmt build exec list" -- "$word")) ;;
    2)
        compopt -o filenames 2>/dev/null
        case ${COMP_WORDS[1]} in
        exec | list) COMPREPLY=($(compgen -f -- "$word")) ;;
        *) COMPREPLY=($(compgen -f -X '!*.vale' -- "$word") $(compgen -d -- "$word")) ;;
        esac
        ;;
    3)
        case ${COMP_WORDS[1]} in
        run | exec) COMPREPLY=($(compgen -W "--ticks" -- "$word")) ;;
        build)
            compopt -o filenames 2>/dev/null
            COMPREPLY=($(compgen -f -- "$word"))
            ;;
        esac
        ;;
    esac
}
complete -F _valec valec

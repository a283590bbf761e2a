# Completes the words of evc in bash.
_evc() {
    local word=${COMP_WORDS[COMP_CWORD]}
    COMPREPLY=()
    if [ "$COMP_CWORD" -eq 1 ]; then
        COMPREPLY=($(compgen -W 'check audit upgrade sim run help --help --version' -- "$word"))
    elif [ "${COMP_WORDS[1]}" = help ]; then
        COMPREPLY=($(compgen -W 'check audit upgrade sim run' -- "$word"))
    elif [ "${COMP_WORDS[COMP_CWORD - 1]}" != --turns ]; then
        compopt -o default
        case ${COMP_WORDS[1]},$word in
        run,-*) COMPREPLY=($(compgen -W '--turns --help' -- "$word")) ;;
        *,-*) COMPREPLY=($(compgen -W '--help' -- "$word")) ;;
        esac
    fi
}
complete -F _evc evc

# Completes the words of evc-explain in bash: a file, or an option.
_evc_explain() {
    COMPREPLY=()
    case ${COMP_WORDS[COMP_CWORD]} in
    -*) COMPREPLY=($(compgen -W '--help --version' -- "${COMP_WORDS[COMP_CWORD]}")) ;;
    *) compopt -o default ;;
    esac
}
complete -F _evc_explain evc-explain

# Completes the words of evc-draw in bash.
_evc_draw() {
    COMPREPLY=()
    case ${COMP_WORDS[COMP_CWORD - 1]} in
    *[\<\>]) compopt -o default ;;
    --from | --to | --worker | --object) ;;
    *)
        compopt -o default
        COMPREPLY=($(compgen -W '--text --html --from --to --worker --object --help --version' -- "${COMP_WORDS[COMP_CWORD]}"))
        ;;
    esac
}
complete -F _evc_draw evc-draw

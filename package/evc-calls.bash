# Completes the words of evc-calls in bash.
_evc_calls() {
    COMPREPLY=()
    if [ "$COMP_CWORD" -eq 1 ]; then
        COMPREPLY=($(compgen -W 'check watch of trace help --help --version' -- "${COMP_WORDS[COMP_CWORD]}"))
    else
        compopt -o default
    fi
}
complete -F _evc_calls evc-calls

# Completion of navd's words for bash: the commands, and nothing behind them, since what follows is numbers.
_navd() {
    COMPREPLY=()
    if [ "$COMP_CWORD" -eq 1 ]; then
        COMPREPLY=($(compgen -W "run lsp once upgrade serve demo" -- "${COMP_WORDS[1]}"))
    fi
}
complete -F _navd navd

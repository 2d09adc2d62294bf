# Completion of rikkovan's arguments in bash.
_rikkovan() {
    local word=${COMP_WORDS[COMP_CWORD]} command=${COMP_WORDS[1]}
    COMPREPLY=()
    if [ "$COMP_CWORD" -eq 1 ]; then
        mapfile -t COMPREPLY < <(compgen -W 'check load read change book release look-up lpsys --help --version' -- "$word")
        return
    fi
    case $command:$word in
    change:-* | book:-* | release:-* | lpsys:-*)
        mapfile -t COMPREPLY < <(compgen -W '--write --help' -- "$word")
        ;;
    check:-* | load:-* | read:-* | look-up:-*)
        mapfile -t COMPREPLY < <(compgen -W '--help' -- "$word")
        ;;
    *)
        compopt -o filenames 2>/dev/null
        mapfile -t COMPREPLY < <(compgen -f -- "$word")
        ;;
    esac
}
complete -F _rikkovan rikkovan

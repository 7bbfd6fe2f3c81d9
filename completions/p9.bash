# bash completion of p9, made by scripts/completions
_p9() {
    local word="${COMP_WORDS[COMP_CWORD]}" previous="${COMP_WORDS[COMP_CWORD-1]}" command="" each
    COMPREPLY=()
    for each in "${COMP_WORDS[@]:1:COMP_CWORD-1}"; do
        case "$each" in play|check|verify|ns|serve) command="$each"; break ;; esac
    done
    case "$command" in
        play)
            mapfile -t COMPREPLY < <(compgen -W "" -- "$word") ;;
        check)
            mapfile -t COMPREPLY < <(compgen -W "" -- "$word") ;;
        verify)
            mapfile -t COMPREPLY < <(compgen -W "" -- "$word") ;;
        ns)
            mapfile -t COMPREPLY < <(compgen -W "" -- "$word") ;;
        serve)
            case "$previous" in
                -a|-r) return ;;
            esac
            mapfile -t COMPREPLY < <(compgen -W "-a -r" -- "$word") ;;
        *)
            mapfile -t COMPREPLY < <(compgen -W "play check verify ns serve" -- "$word") ;;
    esac
}
complete -F _p9 p9

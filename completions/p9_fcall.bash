# bash completion of p9_fcall, made by scripts/completions
_p9_fcall() {
    local word="${COMP_WORDS[COMP_CWORD]}" previous="${COMP_WORDS[COMP_CWORD-1]}" command="" each
    COMPREPLY=()
    for each in "${COMP_WORDS[@]:1:COMP_CWORD-1}"; do
        case "$each" in frames|exchange) command="$each"; break ;; esac
    done
    case "$command" in
        frames)
            mapfile -t COMPREPLY < <(compgen -W "" -- "$word") ;;
        exchange)
            mapfile -t COMPREPLY < <(compgen -W "" -- "$word") ;;
        *)
            mapfile -t COMPREPLY < <(compgen -W "--version frames exchange" -- "$word") ;;
    esac
}
complete -F _p9_fcall p9_fcall

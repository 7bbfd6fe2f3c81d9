# bash completion of p9d, made by scripts/completions
_p9d() {
    local word="${COMP_WORDS[COMP_CWORD]}" previous="${COMP_WORDS[COMP_CWORD-1]}" command="" each
    COMPREPLY=()
    case "$command" in
        *)
            case "$previous" in
                -d|--check) compopt -o filenames 2>/dev/null; mapfile -t COMPREPLY < <(compgen -f -- "$word"); return ;;
                -a|-s|--clients|--per-address|--idle) return ;;
            esac
            compopt -o filenames 2>/dev/null
            mapfile -t COMPREPLY < <(compgen -W "-a -d -s --check --clients --per-address --idle --anyway -q --quiet -h --help -V --version" -- "$word"; compgen -f -- "$word") ;;
    esac
}
complete -F _p9d p9d

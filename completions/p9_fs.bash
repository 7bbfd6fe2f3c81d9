# bash completion of p9_fs, made by scripts/completions
_p9_fs() {
    local word="${COMP_WORDS[COMP_CWORD]}" previous="${COMP_WORDS[COMP_CWORD-1]}" command="" each
    COMPREPLY=()
    for each in "${COMP_WORDS[@]:1:COMP_CWORD-1}"; do
        case "$each" in ls|get|cat|stat|put|mkdir|rm|mv|chmod|sh) command="$each"; break ;; esac
    done
    case "$command" in
        ls)
            mapfile -t COMPREPLY < <(compgen -W "-l -h --help" -- "$word") ;;
        get)
            case "$previous" in
                --owners) compopt -o filenames 2>/dev/null; mapfile -t COMPREPLY < <(compgen -f -- "$word"); return ;;
                --max-depth|--max-files|--max-bytes) return ;;
            esac
            compopt -o filenames 2>/dev/null
            mapfile -t COMPREPLY < <(compgen -W "-r -p --owners --max-depth --max-files --max-bytes -h --help" -- "$word"; compgen -f -- "$word") ;;
        cat)
            mapfile -t COMPREPLY < <(compgen -W "-h --help" -- "$word") ;;
        stat)
            mapfile -t COMPREPLY < <(compgen -W "-h --help" -- "$word") ;;
        put)
            compopt -o filenames 2>/dev/null
            mapfile -t COMPREPLY < <(compgen -W "-r -h --help" -- "$word"; compgen -f -- "$word") ;;
        mkdir)
            mapfile -t COMPREPLY < <(compgen -W "-p -h --help" -- "$word") ;;
        rm)
            mapfile -t COMPREPLY < <(compgen -W "-r -h --help" -- "$word") ;;
        mv)
            mapfile -t COMPREPLY < <(compgen -W "-h --help" -- "$word") ;;
        chmod)
            mapfile -t COMPREPLY < <(compgen -W "-h --help" -- "$word") ;;
        sh)
            mapfile -t COMPREPLY < <(compgen -W "-h --help" -- "$word") ;;
        *)
            case "$previous" in
                -a|-u|-n|-m|--timeout) return ;;
            esac
            mapfile -t COMPREPLY < <(compgen -W "-a -u -n -m --timeout -h --help -V --version ls get cat stat put mkdir rm mv chmod sh" -- "$word") ;;
    esac
}
complete -F _p9_fs p9_fs

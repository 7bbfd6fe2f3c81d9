# bash completion of p9_admin, made by scripts/completions
_p9_admin() {
    local word="${COMP_WORDS[COMP_CWORD]}" previous="${COMP_WORDS[COMP_CWORD-1]}" command="" each
    COMPREPLY=()
    for each in "${COMP_WORDS[@]:1:COMP_CWORD-1}"; do
        case "$each" in pack|seal|explain|tree|map|demo|world|unpack) command="$each"; break ;; esac
    done
    case "$command" in
        pack)
            case "$previous" in
                --passwd|--group|-o|--output) compopt -o filenames 2>/dev/null; mapfile -t COMPREPLY < <(compgen -f -- "$word"); return ;;
                --name|--owner|--group-owner|--leader|--user|--hide|--rename) return ;;
            esac
            compopt -o filenames 2>/dev/null
            mapfile -t COMPREPLY < <(compgen -W "--name --passwd --group --owner --group-owner --leader --user --hide --with-hidden --rename -o --output --skip -h --help" -- "$word"; compgen -f -- "$word") ;;
        seal)
            case "$previous" in
                -o|--output) compopt -o filenames 2>/dev/null; mapfile -t COMPREPLY < <(compgen -f -- "$word"); return ;;
                --name) return ;;
            esac
            mapfile -t COMPREPLY < <(compgen -W "--name -o --output --anyway --fixed -h --help" -- "$word") ;;
        explain)
            case "$previous" in
                --name) return ;;
            esac
            mapfile -t COMPREPLY < <(compgen -W "--name -h --help" -- "$word") ;;
        tree)
            mapfile -t COMPREPLY < <(compgen -W "-h --help" -- "$word") ;;
        map)
            mapfile -t COMPREPLY < <(compgen -W "-h --help" -- "$word") ;;
        demo)
            compopt -o filenames 2>/dev/null
            mapfile -t COMPREPLY < <(compgen -W "-h --help" -- "$word"; compgen -f -- "$word") ;;
        world)
            case "$previous" in
                -o|--output) compopt -o filenames 2>/dev/null; mapfile -t COMPREPLY < <(compgen -f -- "$word"); return ;;
            esac
            compopt -o filenames 2>/dev/null
            mapfile -t COMPREPLY < <(compgen -W "-o --output -h --help" -- "$word"; compgen -f -- "$word") ;;
        unpack)
            compopt -o filenames 2>/dev/null
            mapfile -t COMPREPLY < <(compgen -W "-p --preserve -h --help" -- "$word"; compgen -f -- "$word") ;;
        *)
            mapfile -t COMPREPLY < <(compgen -W "-h --help -V --version pack seal explain tree map demo world unpack" -- "$word") ;;
    esac
}
complete -F _p9_admin p9_admin

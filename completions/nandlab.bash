# bash completion of nandlab, written by bench/completions.py
_nandlab()
{
    local word="${COMP_WORDS[COMP_CWORD]}" before="${COMP_WORDS[COMP_CWORD-1]}"
    COMPREPLY=()
    if [ "$COMP_CWORD" -eq 1 ]; then
        mapfile -t COMPREPLY < <(compgen -W "geometry survey array history compare merge repair correct arrange verify origin --help --version" -- "$word")
        return
    fi
    case "$before" in
        --bits) return ;;
        --from) return ;;
        --map) compopt -o filenames; mapfile -t COMPREPLY < <(compgen -f -- "$word"); return ;;
        --report) compopt -o filenames; mapfile -t COMPREPLY < <(compgen -f -- "$word"); return ;;
        --rows) return ;;
        --until) return ;;
    esac
    if [[ "$word" == -* ]]; then
        case "${COMP_WORDS[1]}" in
            geometry) mapfile -t COMPREPLY < <(compgen -W "--json --progress --report --help" -- "$word") ;;
            survey) mapfile -t COMPREPLY < <(compgen -W "--rows --json --progress --report --help" -- "$word") ;;
            array) mapfile -t COMPREPLY < <(compgen -W "--force --map --until --damaged --json --progress --report --help" -- "$word") ;;
            history) mapfile -t COMPREPLY < <(compgen -W "--json --progress --report --help" -- "$word") ;;
            compare) mapfile -t COMPREPLY < <(compgen -W "--json --progress --report --help" -- "$word") ;;
            merge) mapfile -t COMPREPLY < <(compgen -W "--force --json --progress --report --help" -- "$word") ;;
            repair) mapfile -t COMPREPLY < <(compgen -W "--force --rows --bits --json --progress --report --help" -- "$word") ;;
            correct) mapfile -t COMPREPLY < <(compgen -W "--force --map --json --progress --report --help" -- "$word") ;;
            arrange) mapfile -t COMPREPLY < <(compgen -W "--force --from --json --progress --report --help" -- "$word") ;;
            verify) mapfile -t COMPREPLY < <(compgen -W "--json --progress --help" -- "$word") ;;
            origin) mapfile -t COMPREPLY < <(compgen -W "--force --until --json --progress --report --help" -- "$word") ;;
        esac
        return
    fi
    compopt -o filenames
    mapfile -t COMPREPLY < <(compgen -f -- "$word")
}
complete -F _nandlab nandlab

# bash completion of nanddisk, written by bench/completions.py
_nanddisk()
{
    local word="${COMP_WORDS[COMP_CWORD]}" before="${COMP_WORDS[COMP_CWORD-1]}"
    COMPREPLY=()
    if [ "$COMP_CWORD" -eq 1 ]; then
        mapfile -t COMPREPLY < <(compgen -W "create serve info check --help --version" -- "$word")
        return
    fi
    case "$before" in
        --bad) return ;;
        --cache) return ;;
        --code) return ;;
        --from) compopt -o filenames; mapfile -t COMPREPLY < <(compgen -f -- "$word"); return ;;
        --geometry) return ;;
        --share) return ;;
        --size) return ;;
        --sync) mapfile -t COMPREPLY < <(compgen -W "erases always" -- "$word"); return ;;
        --wait) return ;;
    esac
    if [[ "$word" == -* ]]; then
        case "${COMP_WORDS[1]}" in
            create) mapfile -t COMPREPLY < <(compgen -W "--size --geometry --from --bad --cache --share --code --help" -- "$word") ;;
            serve) mapfile -t COMPREPLY < <(compgen -W "--read-only --sync --wait --help" -- "$word") ;;
            info) mapfile -t COMPREPLY < <(compgen -W "--json --help" -- "$word") ;;
            check) mapfile -t COMPREPLY < <(compgen -W "--json --help" -- "$word") ;;
        esac
        return
    fi
    compopt -o filenames
    mapfile -t COMPREPLY < <(compgen -f -- "$word")
}
complete -F _nanddisk nanddisk
